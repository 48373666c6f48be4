"""The command line: options, exit status, JSON beside words, records, several reports, refusals."""
import os
import struct

from kit import ROOT, ZOGRAXT, XS, check, check_json, constraint, run as run_words, schema, write

EXAMPLE = os.path.join(ROOT, "front/example")
INT = '<xs:element name="n" type="xs:int"/>'


def example(count, folder):
    """The example ledger tells the words that stand beside it."""
    with open(os.path.join(EXAMPLE, "ledger.txt"), encoding="utf-8") as due:
        count.expect("the example", check("ledger.xsd", "ledger.xml", cwd=EXAMPLE), (1, due.read(), ""))
    status, told = check_json("ledger.xsd", "ledger.xml", cwd=EXAMPLE)
    reports = [(r["kind"], r["line"], r["path"], r["values"]) for r in told[0]["reports"]]
    count.expect("the example as JSON", (status, reports), (1, [
        (4, 5, "/ledger/voucher[3]", ["V-1001"]), (3, 6, "/ledger/voucher[4]", []),
        (5, 8, "/ledger/payment[2]", ["V-1003"])]))
    count.expect("the earlier voucher", (told[0]["reports"][0]["earlier_line"],
                                         told[0]["reports"][0]["earlier_path"]), (3, "/ledger/voucher[1]"))
    count.expect("the counts", told[0]["constraints"], [
        {"type": "key", "constraint": "voucher-number", "reached": 4, "kept": 2, "rejected": 2},
        {"type": "keyref", "constraint": "paid-voucher", "references": 2, "nowhere": 1, "rejected": 0}])
    for told_one in told[0]["reports"]:
        count.expect("a message of JSON in the words", told_one["message"] in
                     check("ledger.xsd", "ledger.xml", cwd=EXAMPLE)[1], True)


def usage(count, _):
    for words in ([], ["check"], ["check", "a.xsd"], ["chek", "a", "b"], ["check", "--most", "x", "a", "b"],
                  ["check", "--nothing", "a", "b"], ["check", "a", "b", "--most"], ["check", "-", "b"],
                  ["check", "--records", "r", "a", "b", "c"]):
        status, out, said = run_words([ZOGRAXT, *words])
        count.expect(f"usage {words}", (status, out, "usage: zograxt" in said), (64, "", True))
    for word, due in (("--help", "Exit status"), ("--version", "zograxt 0.")):
        status, out, said = run_words([ZOGRAXT, word])
        count.expect(word, (status, due in out, said), (0, True, ""))


def options(count, folder):
    xsd, xml = os.path.join(EXAMPLE, "ledger.xsd"), os.path.join(EXAMPLE, "ledger.xml")
    count.expect("--quiet", check("--quiet", xsd, xml), (1, "", ""))
    status, out, _ = check("--most", "1", xsd, xml)
    count.expect("--most 1", (status, out.count("voucher-number'"), "2 more reports" in out), (1, 2, True))
    status, told = check_json("--most", "0", xsd, xml)
    count.expect("--most 0", (status, told[0]["reports"], told[0]["report_count"]), (1, [], 3))
    with open(xml, "rb") as text:
        status, told = check_json(xsd, "-", stdin=text.read())
    count.expect("standard input", (status, told[0]["file"], told[0]["report_count"]), (1, "-", 3))
    good = write(folder, "good.xml", '<ledger xmlns="urn:example:ledger"><voucher><number>1</number>'
                                     '<amount>1</amount></voucher></ledger>')
    status, told = check_json(xsd, good, xml, good)
    count.expect("several reports", (status, [t["status"] for t in told]), (1, [0, 1, 0]))
    count.expect("progress", check("--progress", "--quiet", xsd, xml)[:2], (1, ""))
    count.expect("behind --", check("--quiet", "--", xsd, xml)[0], 1)


def after_failures(count, folder):
    """A report that ends early leaves nothing behind for the next one."""
    xsd = write(folder, "a.xsd", schema('<xs:element name="n" type="xs:string"/>'))
    good = write(folder, "good.xml", "<t><r><n>1</n></r><r><n>1</n></r></t>")
    bad = {"entity.xml": '<!DOCTYPE t [<!ENTITY e SYSTEM "x">]><t><r><n>&e;</n></r></t>', "cut.xml": "<t><r><n>1",
           "deep.xml": "<t>" + "<a>" * 6000, "code.xml": '<?xml version="1.0" encoding="x-foo"?><t/>'}
    files = [good]
    for name, text in bad.items():
        files += [write(folder, name, text), good]
    status, told = check_json(xsd, *files)
    count.expect("after failures", (status, [t["status"] for t in told]), (5, [1, 3, 1, 3, 1, 5, 1, 3, 1]))
    count.expect("after failures, alike", [t == told[0] for t in told[::2]], [True] * 5)
    out = check(xsd, good, good)[1]
    count.expect("counts of several", out.count(f"{good}: unique 'k': 2 reached = 1 kept + 1 rejected\n"), 2)


def records(count, folder):
    """--records writes whole records: as many as are stated, and ID, NS, ES, EE and FI alone."""
    file = os.path.join(folder, "records")
    check("--records", file, os.path.join(EXAMPLE, "ledger.xsd"), os.path.join(EXAMPLE, "ledger.xml"))
    with open(file, "rb") as made:
        text = made.read()
    marks, at = [], 0
    while at < len(text):
        marks.append(text[at:at + 2].decode())
        at += 4 + struct.unpack_from("<H", text, at + 2)[0]
    count.expect("records, end", at, len(text))
    count.expect("records, marks", (marks[:3], marks[-1], marks.count("ES"), marks.count("EE")),
                 (["ID", "ID", "NS"], "FI", 10, 10))
    status, _, said = check("--records", folder, os.path.join(EXAMPLE, "ledger.xsd"),
                            os.path.join(EXAMPLE, "ledger.xml"))
    count.expect("records to a folder", (status, "can't be written" in said), (64, True))


def statuses(count, folder):
    xsd = write(folder, "s.xsd", schema(INT))
    cases = [("valid", "<t><r><n>1</n></r></t>", 0), ("not valid", "<t><r><n>x</n></r></t>", 2),
             ("identity and not valid", "<t><r><n>1</n></r><r><n>1</n></r><u/></t>", 1),
             ("no XML", "<t><r></t>", 3), ("nothing", "", 3), ("another root", "<u/>", 2)]
    for name, text, due in cases:
        count.expect(name, check(xsd, write(folder, "s.xml", text))[0], due)
    status, told = check_json(xsd, write(folder, "s.xml", "<t>\n<r><n>1</n></r><r><n>1</n></r>\n<u></t>"))
    count.expect("reports before the end", (status, told[0]["report_count"], told[0]["faults"][-1]["line"]),
                 (3, 1, 3))
    count.expect("no such report", check(xsd, folder + "/none.xml")[0], 64)
    count.expect("a folder as report", check(xsd, folder)[0], 64)
    count.expect("no such schema", check(folder + "/none.xsd", folder + "/s.xml")[0], 64)
    count.expect("one of two is missing", check(xsd, folder + "/none.xml", folder + "/s.xml")[0], 64)


def refused_schemas(count, folder):
    """A bad path is told with its place in the schema and the checker's reason."""
    report = write(folder, "r.xml", "<t/>")
    cases = [("r", "", "X1"), ("r", ":n", "X2"), ("a:", "n", "X4"), ("r", "n#", "X5"), ("r|", "n", "X6"),
             (".//", "n", "X7"), ("@id", "n", "X8"), ("parent::r", "n", "X10"), ("p:r", "n", "X11"),
             ("/r", "n", "X12"), ("r/", "n", "X13"), ("r//n", "n", "X14"), ("r n", "n", "X14")]
    for selector, field, reason in cases:
        xsd = write(folder, "x.xsd", schema(INT, "", "", "", "\n" + constraint("key", "k", selector, [field])))
        status, told = check_json(xsd, report)
        words = [f["message"] for f in told[0]["faults"]]
        count.expect(f"selector {selector!r} field {field!r}", (status, told[0]["faults"][0]["line"],
                     reason + ":" in words[0], "key 'k'" in words[0]), (4, 2, True, True))
    for name, text in (("no XML", "<xs:schema"), ("no schema", "<t/>"), ("two of a name", (
            f'<xs:schema {XS}><xs:element name="t"/><xs:element name="t"/></xs:schema>')), ("empty", "")):
        count.expect(name, check(write(folder, "x.xsd", text), report)[0], 4)
    inner = write(folder, "inner.xsd", schema(INT, "", "", "", constraint("key", "k", "r//r", ["n"])))
    outer = f'<xs:schema {XS}><xs:include schemaLocation="inner.xsd"/></xs:schema>'
    status, told = check_json(write(folder, "outer.xsd", outer), report)
    fault = told[0]["faults"][0]
    count.expect("a path of an included schema", (status, fault["file"], "X14" in fault["message"]),
                 (4, inner, True))


def raw(count, folder):
    """--raw: document 01's names, where no prefix is any namespace and attributes go by local names."""
    xsd = write(folder, "raw.xsd", schema(INT, '<xs:attribute name="id"/>', "", "urn:p",
                                          constraint("key", "k", "r", ["n"])))
    xml = write(folder, "raw.xml", '<t xmlns="urn:p"><r><n>1</n></r><r><n>01</n></r></t>')
    count.expect("names of Part 1", check(xsd, xml)[0], 0)
    count.expect("names of document 01", check("--raw", xsd, xml)[0], 1)
    prefixed = write(folder, "rp.xsd", schema(INT, "", "", "urn:p", constraint("key", "k", "p:r", ["p:n"])))
    count.expect("--raw with prefixes", check("--raw", prefixed, xml)[0], 1)


def run(count, folder):
    for part in (example, usage, options, after_failures, records, statuses, refused_schemas, raw):
        part(count, folder)
