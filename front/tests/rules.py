"""The rules of docs/FRONT.md, each by its letter and number: a schema, a report, and what is told.

Each case also goes through the two outside checkers; where one says otherwise, the case says why.
And each is checked with --all, which must tell the same.
"""
from kit import XS, XSI, check_json, constraint, outside, schema, write

INT = '<xs:element name="n" type="xs:int" minOccurs="0"/>'
ANY = '<xs:any processContents="{}" minOccurs="0"/>'
NIL = '<xs:element name="n" type="xs:int" nillable="true" minOccurs="0"/>'


def two(a, b, inside=""):
    return f"<t {XSI} {XS} {inside}><r>{a}</r><r>{b}</r></t>"


def one_space(selector, field, extra=""):
    return schema(INT + extra, '<xs:attribute name="id"/>', "", "urn:p",
                  constraint("key", "k", selector, [field]))


def attributes(field):
    """Two attributes `id`, one in a namespace."""
    return {"main": (
        f'<xs:schema {XS} xmlns:q="urn:q"><xs:import namespace="urn:q" schemaLocation="q.xsd"/>'
        '<xs:element name="t"><xs:complexType><xs:sequence><xs:element name="r" maxOccurs="unbounded">'
        '<xs:complexType><xs:attribute name="id"/><xs:attribute ref="q:id"/><xs:attribute ref="q:no"/>'
        '</xs:complexType></xs:element></xs:sequence></xs:complexType>'
        + constraint("unique", "k", "r", [field]) + '</xs:element></xs:schema>'),
        "q.xsd": (f'<xs:schema {XS} targetNamespace="urn:q"><xs:attribute name="id"/>'
                  '<xs:attribute name="no"/></xs:schema>')}


def nested(constraints_t, constraints_b=""):
    """A root `t` with branches `b` of accounts `a` and vouchers `v`."""
    parts = "".join(f'<xs:element name="{x}"><xs:complexType><xs:attribute name="n"/></xs:complexType>'
                    '</xs:element>' for x in "av")
    return (f'<xs:schema {XS}><xs:element name="t"><xs:complexType><xs:sequence>'
            '<xs:element name="b" maxOccurs="unbounded"><xs:complexType>'
            f'<xs:choice minOccurs="0" maxOccurs="unbounded">{parts}</xs:choice></xs:complexType>'
            f'{constraints_b}</xs:element></xs:sequence></xs:complexType>{constraints_t}</xs:element>'
            '</xs:schema>')


def two_spaces():
    """Two namespaces, each with a key `k` and a keyref `f` of its own."""
    def part(space, other):
        return (f'<xs:schema {XS} targetNamespace="urn:{space}" xmlns:{space}="urn:{space}" '
                f'elementFormDefault="qualified">{other}<xs:element name="b"><xs:complexType>'
                '<xs:choice maxOccurs="unbounded"><xs:element name="a"><xs:complexType><xs:attribute name="n"/>'
                '</xs:complexType></xs:element><xs:element name="v"><xs:complexType><xs:attribute name="n"/>'
                '</xs:complexType></xs:element><xs:any namespace="##other"/></xs:choice></xs:complexType>'
                + constraint("key", "k", f"{space}:a", ["@n"])
                + constraint("keyref", "f", f"{space}:v", ["@n"], f"{space}:k") + "</xs:element></xs:schema>")
    return {"main": part("p", '<xs:import namespace="urn:q" schemaLocation="qq.xsd"/>'),
            "qq.xsd": part("q", "")}


KEY_A = constraint("key", "k", "a", ["@n"])
REF_V = constraint("keyref", "f", "v", ["@n"], "k")
LONG = "x" * 300

# rule, schema, report, status, kinds with paths, {outside checker: why it says otherwise}
CASES = [
    ("N1", one_space("p:r", "p:n"), '<t xmlns="urn:p"><r><n>1</n></r><r><n>01</n></r></t>', 1,
     [(4, "/t/r[2]")], {}),
    ("N1", one_space("r", "p:n"), '<t xmlns="urn:p"><r><n>1</n></r><r><n>1</n></r></t>', 0, [], {}),
    ("N1", one_space("p:r", "n"), '<t xmlns="urn:p"><r><n>1</n></r></t>', 1, [(3, "/t/r")], {}),
    ("N1", one_space("p:r", "@id"), '<t xmlns="urn:p"><r id="1"/><r id="1"/></t>', 1,
     [(4, "/t/r[2]")], {}),
    ("N2", attributes("@id"), '<t xmlns:q="urn:q"><r id="1" q:id="2"/><r id="3" q:id="1"/></t>', 0, [], {}),
    ("N2", attributes("@q:id"), '<t xmlns:q="urn:q"><r id="1" q:id="2"/><r id="1" q:id="2"/></t>', 1,
     [(4, "/t/r[2]")], {}),
    ("N2", attributes("@q:id"), '<t xmlns:q="urn:q"><r id="1"/><r id="1"/></t>', 0, [], {}),
    ("N3", one_space("*", "*"), '<t xmlns="urn:p"><r><n>1</n></r><r><n>1</n></r></t>', 1,
     [(4, "/t/r[2]")], {}),
    ("N3", one_space("p:*", "p:*"), '<t xmlns="urn:p"><r><n>1</n></r><r><n>1</n></r></t>', 1,
     [(4, "/t/r[2]")], {}),
    ("N3", attributes("@*"), '<t xmlns:q="urn:q"><r id="1"/><r q:id="1"/></t>', 1, [(4, "/t/r[2]")], {}),
    ("N3", attributes("@*"), '<t xmlns:q="urn:q"><r id="1" q:id="1"/></t>', 1, [(1, "/t/r")],
     {"xerces": "Xerces-C takes one of the attributes that a wildcard reaches"}),
    ("N4", attributes("@q:*"), '<t xmlns:q="urn:q"><r id="1" q:id="1"/><r id="1" q:no="1"/></t>', 1,
     [(4, "/t/r[2]")], {}),
    ("N4", attributes("@q:*"), '<t xmlns:q="urn:q"><r id="1"/><r id="1"/></t>', 0, [], {}),
    ("N5", schema(f'<xs:element name="{LONG}" type="xs:int"/>', "", "", "",
                  constraint("unique", "k", "r", [LONG])),
     two(f"<{LONG}>1</{LONG}>", f"<{LONG}>01</{LONG}>"), 1, [(4, "/t/r[2]")], {}),
    ("N5", schema('<xs:element name="m" type="xs:int"/>', '<xs:attribute name="n1.id"/>', "", "",
                  constraint("unique", "k", "r", ["@n1.id"])),
     '<t><r n1.id="a"><m>1</m></r><r n1.id="a"><m>2</m></r></t>', 1, [(4, "/t/r[2]")], {}),

    ("K1", schema('<xs:element name="n" type="xs:anySimpleType"/>'),
     two('<n xsi:type="xs:int">1</n>', '<n xsi:type="xs:decimal">1.0</n>'), 1, [(4, "/t/r[2]")], {}),
    ("K1", schema('<xs:element name="n" type="xs:anySimpleType"/>'),
     two('<n xsi:type="xs:int">1</n>', '<n xsi:type="xs:string">1</n>'), 0, [], {}),
    ("K1", schema('<xs:element name="n" type="xs:anySimpleType"/>'),
     two('<n xsi:type="xs:float">1</n>', '<n xsi:type="xs:double">1</n>'), 0, [], {}),
    ("K1", schema('<xs:element name="n" type="xs:QName"/>'),
     two('<n xmlns:q="urn:p">q:a</n>', '<n xmlns:z="urn:p">z:a</n>', 'xmlns:q="urn:q"'), 1,
     [(4, "/t/r[2]")], {}),
    ("K1", schema("", '<xs:attribute name="a" type="xs:QName"/>', "", "", constraint("unique", "k", "r", ["@a"])),
     '<t xmlns:q="urn:q"><r xmlns:q="urn:p" a="q:a"/><r a="q:a"/></t>', 0, [], {}),
    ("K2", schema('<xs:element name="n" type="xs:string"/>'),
     two(f"<n>{LONG}a</n>", f"<n>{LONG}a</n>"), 1, [(4, "/t/r[2]")], {}),
    ("K2", schema('<xs:element name="n" type="xs:string"/>'),
     two(f"<n>{LONG}a</n>", f"<n>{LONG}b</n>"), 0, [], {}),
    ("K3", schema('<xs:element name="n" type="xs:int"/>'), two("<n>x</n>", "<n>x</n>"), 1,
     [(4, "/t/r[2]")], {}),

    ("V1", schema('<xs:element name="n" type="xs:int" default="5"/>'), two("<n/>", "<n>5</n>"), 1,
     [(4, "/t/r[2]")], {"xerces": "Xerces-C does not count the default of an empty element"}),
    ("V1", schema('<xs:element name="n" type="xs:int" fixed="5"/>'), two("<n/>", "<n>05</n>"), 1,
     [(4, "/t/r[2]")], {"xerces": "Xerces-C does not count the fixed value of an empty element"}),
    ("V1", schema("", '<xs:attribute name="a" type="xs:decimal" default="7"/>', "", "",
                  constraint("unique", "k", "r", ["@a"])), '<t><r/><r a="7.0"/></t>', 1,
     [(4, "/t/r[2]")], {}),
    ("V2", schema('<xs:element name="n" type="xs:decimal"/>'),
     two('<n xsi:type="xs:int">1</n>', "<n>1.0</n>"), 1, [(4, "/t/r[2]")], {}),
    ("V3", schema('<xs:element ref="h"/>', "", '<xs:element name="h" type="xs:decimal"/>'
                  '<xs:element name="n" type="xs:int" substitutionGroup="h"/>'),
     two("<n>1</n>", "<n>01</n>"), 1, [(4, "/t/r[2]")], {}),
    ("V3", schema('<xs:element ref="h"/>', "", '<xs:element name="h" type="xs:decimal"/>'
                  '<xs:element name="n" type="xs:int" substitutionGroup="h"/>'),
     two("<h>1</h>", "<h>1</h>"), 0, [], {}),
    ("V4", schema(NIL), two('<n xsi:nil="true"/>', "<n>1</n>"), 1, [(2, "/t/r[1]")],
     {"xerces": "Xerces-C takes a nil element for an empty value"}),
    ("V4", schema(NIL, "", "", "", constraint("key", "k", "r", ["n"])),
     two('<n xsi:nil="true"/>', "<n>1</n>"), 1, [(2, "/t/r[1]"), (7, "/t/r[2]")], {}),
    ("V4", schema(NIL, "", "", "", constraint("key", "k", "r", ["n"])), two("<n>2</n>", "<n>1</n>"), 1,
     [(7, "/t/r[1]"), (7, "/t/r[2]")], {"xmllint": "libxml2 lets a key field be nillable"}),
    ("V4", schema(NIL, "", "", "", constraint("unique", "u", "r", ["n"])), two("<n>2</n>", "<n>2</n>"), 1,
     [(4, "/t/r[2]")], {}),
    ("V5", schema(ANY.format("lax"), "", '<xs:element name="n" type="xs:int"/>'),
     two("<n>1</n>", "<n>01</n>"), 1, [(4, "/t/r[2]")], {}),
    ("V5", schema(ANY.format("lax")), two("<n>1</n>", ""), 1, [(2, "/t/r[1]")],
     {"xerces": "Xerces-C passes over a field without a type"}),
    ("V5", schema(ANY.format("skip")), two("<n>1</n>", ""), 1, [(2, "/t/r[1]")],
     {"xerces": "Xerces-C does not look into what is skipped", "xmllint": "nor does libxml2"}),
    ("V5", schema("", '<xs:anyAttribute processContents="skip"/>', "", "",
                  constraint("unique", "k", "r", ["@a"])), '<t><r a="1"/><r a="1"/></t>', 1,
     [(4, "/t/r[2]")], {"xmllint": "libxml2 does not look at attributes that are skipped"}),
    ("V6", schema('<xs:element name="n"><xs:complexType><xs:simpleContent><xs:extension base="xs:int">'
                  '<xs:attribute name="u"/></xs:extension></xs:simpleContent></xs:complexType></xs:element>'),
     two('<n u="a">1</n>', '<n u="b">01</n>'), 1, [(4, "/t/r[2]")], {}),
    ("V6", schema('<xs:element name="n" type="xs:anyType"/>'), two("<n>1</n>", "<n>2</n>"), 1,
     [(2, "/t/r[1]"), (2, "/t/r[2]")], {"xerces": "Xerces-C takes the text of an element with complex type"}),
    ("V7", schema('<xs:element name="n" type="xs:string"/>'), two("<n/>", "<n></n>"), 1,
     [(4, "/t/r[2]")], {}),
    ("V7", schema(INT), two("", ""), 0, [], {}),
    ("V7", schema(INT, "", "", "", constraint("key", "k", "r", ["n"])), two("", "<n>1</n>"), 1,
     [(3, "/t/r[1]")], {}),
    ("V8", schema('<xs:element name="n" type="xs:int" maxOccurs="2"/>'), two("<n>1</n><n>2</n>", "<n>1</n>"),
     1, [(1, "/t/r[1]")], {}),
    ("V8", schema(INT, "", "", "", constraint("unique", "k", "r", ["n|.//n"])), two("<n>1</n>", "<n>2</n>"),
     0, [], {"xerces": "Xerces-C counts a node once for each alternative that reaches it"}),

    ("V9", schema('<xs:element name="n" type="xs:string"/>'),
     two("<n>x<!-- c -->y&amp;</n>", "<n><![CDATA[x]]>&#121;<?p?>&#x26;</n>"), 1, [(4, "/t/r[2]")], {}),

    ("T1", nested("", KEY_A + REF_V), '<t><b><a n="1"/><v n="1"/></b></t>', 0, [], {}),
    ("T1", nested("", KEY_A + REF_V), '<t><b><a n="1"/><v n="2"/></b></t>', 1, [(5, "/t/b/v")], {}),
    ("T1", nested("", KEY_A), '<t><b><a n="1"/></b><b><a n="1"/></b></t>', 0, [], {}),
    ("T1", nested(constraint("keyref", "f", "b/v", ["@n"], "k"), KEY_A),
     '<t><b><a n="1"/></b><b><v n="1"/></b></t>', 0, [],
     {"xerces": "Xerces-C does not give an element the tables of its children"}),
    ("T1", two_spaces(), '<b xmlns="urn:p" xmlns:q="urn:q"><a n="1"/><v n="1"/><q:b><q:a n="2"/>'
     '<q:v n="1"/></q:b></b>', 1, [(5, "/b/q:b/q:v")], {}),
    ("T1", two_spaces(), '<b xmlns="urn:p" xmlns:q="urn:q"><a n="1"/><v n="2"/><q:b><q:a n="2"/>'
     '<q:v n="2"/></q:b></b>', 1, [(5, "/b/v")], {}),
    ("T2", nested("", KEY_A + REF_V), '<t><b><a n="1"/></b><b><v n="1"/></b></t>', 0, [],
     {"xmllint": "node tables: request U12", "xerces": "node tables: request U12"}),
]


def files(folder, name, xsd, xml):
    parts = xsd if isinstance(xsd, dict) else {"main": xsd}
    for file, text in parts.items():
        write(folder, name + ".xsd" if file == "main" else file, text)
    return f"{folder}/{name}.xsd", write(folder, name + ".xml", xml)


def run(count, folder):
    for number, (rule, xsd, xml, status, kinds, differences) in enumerate(CASES):
        schema_file, report = files(folder, f"c{number}", xsd, xml)
        what = f"{rule} case {number}"
        found, told = check_json(schema_file, report)
        count.expect(f"{what}, status", found, status)
        reports = told[0].get("reports", [])
        count.expect(f"{what}, kinds", [(r["kind"], r["path"]) for r in reports], kinds)
        count.expect(f"{what}, all handed in", check_json("--all", schema_file, report), (found, told))
        for who, valid in outside(schema_file, report).items():
            count.expect(f"{what} by {who}, who takes it: {valid}", valid is not (status == 0),
                         who in differences)
