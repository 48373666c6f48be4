"""Damaged files never crash it: bytes of reports and schemas changed, cut, doubled.

300 files in the gate; `front/tests/damaged.py 10000` runs more.
"""
import os
import random
import sys

from kit import ROOT, Count, check

GOOD = {0, 1, 2, 3, 4, 5}
WORDS = [b"<", b">", b"&", b"]]>", b"<!--", b"<![CDATA[", b"\xff", b"\x00", b"xsi:nil='true'", b"<ledger>",
         b"&#xD800;", b"xmlns='urn:x'", b"\xe2\x80\xa8", b"<!DOCTYPE a [<!ENTITY b 'c'>]>", b"xsi:type='xs:int'"]


def damage(text, random_):
    out = bytearray(text)
    for _ in range(random_.randint(1, 4)):
        at, kind = random_.randrange(len(out) + 1), random_.randrange(5)
        if kind == 0 and out:
            out[at % len(out)] = random_.randrange(256)
        elif kind == 1:
            del out[at:at + random_.randint(1, 40)]
        elif kind == 2:
            out[at:at] = random_.choice(WORDS)
        elif kind == 3:
            out[at:at] = out[at:at + random_.randint(1, 200)]
        elif kind == 4 and random_.random() < 0.2:
            del out[at:]
    return bytes(out)


def run(count, folder, number=300):
    random_ = random.Random(7)
    example = os.path.join(ROOT, "front/example")
    texts = {name: open(os.path.join(example, name), "rb").read() for name in ("ledger.xsd", "ledger.xml")}
    for i in range(number):
        name = "ledger.xsd" if i % 4 == 0 else "ledger.xml"
        paths = {}
        for file, text in texts.items():
            paths[file] = os.path.join(folder, file)
            with open(paths[file], "wb") as out:
                out.write(damage(text, random_) if file == name else text)
        status, _, words = check(paths["ledger.xsd"], paths["ledger.xml"])
        count.expect(f"damaged {name} {i}: {words[-300:]}", status in GOOD, True)


if __name__ == "__main__":
    import tempfile
    COUNT = Count()
    with tempfile.TemporaryDirectory() as FOLDER:
        run(COUNT, FOLDER, int(sys.argv[1]))
    print(f"{COUNT.passed} passed, {COUNT.failed} failed")
