"""Limits of the library, and what the command does at and past them."""
from kit import XS, check, check_json, constraint, outside, schema, write

INT = '<xs:element name="n" type="xs:int" minOccurs="0"/>'
TWO = "<t><r><n>1</n></r><r><n>01</n></r></t>"


def many(number, kind="unique"):
    return "".join(constraint(kind, f"k{i}", "r", ["n"]) for i in range(number))


def tree(constraints):
    """An element `e` in which `e` may stand again, and which bears the constraints."""
    return (f'<xs:schema {XS}><xs:element name="e"><xs:complexType><xs:sequence>'
            '<xs:element ref="e" minOccurs="0" maxOccurs="unbounded"/></xs:sequence>'
            f'<xs:attribute name="n"/></xs:complexType>{constraints}</xs:element></xs:schema>')


def chain(depth):
    return "".join(f'<e n="{i}">' for i in range(depth)) + "</e>" * depth


def on_one_element(count, folder):
    """Nine, and forty, constraints on one element: several sessions, no report lost or told twice."""
    report = write(folder, "two.xml", TWO)
    for number in (1, 8, 9, 40, 100):
        xsd = write(folder, f"many{number}.xsd", schema(INT, "", "", "", many(number)))
        status, told = check_json("--most", "1000", xsd, report)
        count.expect(f"{number} constraints, status", status, 1)
        names = sorted(r["constraint"] for r in told[0]["reports"])
        count.expect(f"{number} constraints, reports", names, sorted(f"k{i}" for i in range(number)))
        counted = {(c["constraint"], c["reached"], c["kept"]) for c in told[0]["constraints"]}
        count.expect(f"{number} constraints, counts", counted, {(f"k{i}", 2, 1) for i in range(number)})


def keyrefs_of_one_key(count, folder):
    """Twenty keyrefs of one key: the key stands in each session, and is told once."""
    refs = "".join(constraint("keyref", f"f{i}", "r", [f"@a{i % 2}"], "k") for i in range(20))
    xsd = write(folder, "refs.xsd", schema(INT, '<xs:attribute name="a0" type="xs:int"/>'
                                           '<xs:attribute name="a1" type="xs:int"/>', "", "",
                                           constraint("key", "k", "r", ["n"]) + refs))
    report = write(folder, "refs.xml", '<t><r a0="2" a1="3"><n>1</n></r><r><n>2</n></r><r><n>2</n></r></t>')
    _, told = check_json(xsd, report)
    kinds = sorted((r["kind"], r["constraint"]) for r in told[0]["reports"])
    due = sorted([(4, "k")] + [(5, f"f{i}") for i in range(20) if i % 2])
    count.expect("twenty keyrefs", kinds, due)
    nowhere = {c["constraint"]: c["nowhere"] for c in told[0]["constraints"] if c["type"] == "keyref"}
    count.expect("twenty keyrefs, nowhere", nowhere, {f"f{i}": i % 2 for i in range(20)})
    count.expect("twenty keyrefs, outside", outside(xsd, report), {"xmllint": False, "xerces": False})


def too_much(count, folder):
    """What no session carries is said, and the rest is checked."""
    wide = constraint("unique", "wide", "r", ["n"] * 5) + constraint("unique", "k", "r", ["n"])
    bars = constraint("unique", "bars", "|".join(f"r{i}" for i in range(9)), ["n"])
    deep = constraint("unique", "deep", "/".join(["r"] * 18), ["n"])
    for name, constraints, said in (("wide", wide, "5 fields"), ("bars", bars, "alternatives"),
                                    ("deep", deep, "sixteen")):
        xsd = write(folder, name + ".xsd", schema(INT, "", "", "", constraints))
        status, told = check_json(xsd, write(folder, "two.xml", TWO))
        count.expect(f"{name}, status", status, 5)
        count.expect(f"{name}, words", [said in words for words in told[0]["unchecked"]], [True])
    _, told = check_json(f"{folder}/wide.xsd", f"{folder}/two.xml")
    count.expect("beside what is too wide", [r["constraint"] for r in told[0]["reports"]], ["k"])


def wildcards(count, folder):
    """`@p:*` beside another attribute, in one constraint or in a keyref and its key."""
    both = constraint("unique", "both", "r", ["@p:*", "@id"])
    pair = constraint("key", "k", "r", ["@id"]) + constraint("keyref", "pair", "r", ["@p:*"], "k")
    alone = constraint("key", "k", "r", ["@p:*"]) + constraint("keyref", "f", "r", ["@p:*"], "k")
    for name, constraints, due in (("both", both, (5, ["both"])), ("pair", pair, (5, ["pair"])),
                                   ("alone", alone, (1, []))):
        text = schema("", '<xs:attribute name="id"/>', "", "", constraints)
        xsd = write(folder, name + ".xsd", text.replace("<xs:schema", '<xs:schema xmlns:p="urn:q"', 1))
        status, told = check_json(xsd, write(folder, "w.xml", '<t><r id="1"/><r id="2"/></t>'))
        count.expect(f"wildcard {name}", (status, [u.split("'")[1] for u in told[0]["unchecked"]]), due)


def refusals(count, folder):
    """Depth 64, 16 scopes and 32 selections are taken; one more is refused, with its place."""
    cases = [("depth", constraint("unique", "k", ".//e", ["@x"]), 33, 34, "21"),
             ("flat", constraint("unique", "k", "zz", ["@n"]), 16, 17, "20")]
    for name, constraints, good, bad, number in cases:
        xsd = write(folder, name + ".xsd", tree(constraints))
        for depth in (1, good):
            if name == "depth" and depth == good:
                continue
            status, told = check_json(xsd, write(folder, "c.xml", chain(depth)))
            count.expect(f"{name} {depth}", (status, told[0]["stops"]), (0, []))
        status, told = check_json(xsd, write(folder, "c.xml", chain(bad + 40)))
        count.expect(f"{name} {bad + 40}, status", status, 5)
        count.expect(f"{name}, number", [f"(refusal {number})" in s["message"] for s in told[0]["stops"]], [True])
        count.expect(f"{name}, place", told[0]["stops"][0]["line"], 1)
    one = write(folder, "one.xsd", (
        f'<xs:schema {XS}><xs:element name="t"><xs:complexType><xs:sequence><xs:element ref="e"/></xs:sequence>'
        f'</xs:complexType>{constraint("unique", "k", ".//x", ["@n"])}</xs:element>'
        '<xs:element name="e"><xs:complexType><xs:sequence><xs:element ref="e" minOccurs="0"/></xs:sequence>'
        '<xs:attribute name="n"/></xs:complexType></xs:element></xs:schema>'))
    count.expect("63 deep", check("--quiet", one, write(folder, "d.xml", f"<t>{chain(63)}</t>"))[0], 0)
    status, told = check_json(one, write(folder, "d.xml", f"<t>{chain(64)}</t>"))
    count.expect("64 deep", (status, "(refusal 14)" in told[0]["stops"][0]["message"]), (5, True))


def crowded(count, folder):
    """Three constraints on each of six elements in each other: 18 open scopes, in three sessions."""
    three = "".join(constraint("unique", f"k{i}", "e", ["@n"]) for i in range(3))
    xsd = write(folder, "crowded.xsd", tree(three))
    status, told = check_json(xsd, write(folder, "six.xml", chain(6)))
    count.expect("18 scopes", (status, told[0]["stops"], len(told[0]["constraints"])), (0, [], 3))
    twice = chain(6).replace("</e>", '<e n="x"/><e n="x"/></e>', 1)
    status, told = check_json(xsd, write(folder, "six.xml", twice))
    count.expect("18 scopes, reports", (status, [r["kind"] for r in told[0]["reports"]]), (1, [4, 4, 4]))


def attributes(count, folder):
    names = "".join(f'<xs:attribute name="a{i}"/>' for i in range(33))
    xsd = write(folder, "attributes.xsd", schema("", names, "", "", constraint("unique", "k", "r", ["@*"])))
    for number, due in ((32, 1), (33, 5)):
        row = " ".join(f'a{i}="1"' for i in range(number))
        count.expect(f"{number} attributes", check(xsd, write(folder, "a.xml", f"<t><r {row}/></t>"))[0], due)
    named = write(folder, "named.xsd", schema("", names, "", "", constraint("unique", "k", "r", ["@a1"])))
    count.expect("33 attributes, one reached", check(named, f"{folder}/a.xml")[0], 0)


def run(count, folder):
    for part in (on_one_element, keyrefs_of_one_key, too_much, wildcards, refusals, crowded, attributes):
        part(count, folder)
