"""Values of every built-in type: two spellings, and whether they are one value.

One schema and one report hold them all: a line for each pair, as elements and as attributes, each
with a constraint of its own; so that many sessions go over one reading, too.
"""
import re

from kit import XERCES, XS, XSI, check_json, constraint, run as run_words, write

LISTS = ('<xs:simpleType name="ints"><xs:list itemType="xs:integer"/></xs:simpleType>'
         '<xs:simpleType name="either"><xs:union memberTypes="xs:integer xs:string"/></xs:simpleType>'
         '<xs:simpleType name="eithers"><xs:list itemType="either"/></xs:simpleType>'
         '<xs:simpleType name="few"><xs:restriction base="ints"><xs:maxLength value="5"/></xs:restriction>'
         '</xs:simpleType><xs:simpleType name="short"><xs:restriction base="either"><xs:pattern value=".{1,9}"/>'
         '</xs:restriction></xs:simpleType><xs:simpleType name="money"><xs:restriction base="xs:decimal">'
         '<xs:fractionDigits value="2"/></xs:restriction></xs:simpleType>')

# type, one spelling, another, whether they are the same value
PAIRS = [
    ("xs:decimal", "1", "01", True), ("xs:decimal", "1", "1.0", True), ("xs:decimal", "+1", "1", True),
    ("xs:decimal", "-0", "0.00", True), ("xs:decimal", ".5", "0.50", True), ("xs:decimal", "1", "-1", False),
    ("xs:decimal", "10", "1", False), ("xs:decimal", "100.010", "100.01", True),
    ("xs:decimal", "9" * 20, "0" + "9" * 20 + ".0", True), ("xs:integer", "7", "+7", True),
    ("xs:nonNegativeInteger", "0", "-0", True), ("xs:long", "12", "0012", True),
    ("xs:string", "1", "01", False), ("xs:string", "a", "a ", False), ("xs:string", "a", "A", False),
    ("xs:token", " a  b ", "a b", True), ("xs:normalizedString", "a b", "a  b", False),
    ("xs:Name", "a", " a", True), ("xs:language", "en", "EN", False),
    ("xs:boolean", "1", "true", True), ("xs:boolean", "0", "false", True), ("xs:boolean", "0", "true", False),
    ("xs:float", "1", "1.0E0", True), ("xs:float", "1e1", "10", True), ("xs:float", "INF", "INF", True),
    ("xs:float", "NaN", "NaN", True), ("xs:float", "-0", "0", True), ("xs:float", "INF", "-INF", False),
    ("xs:float", "16777216", "16777217", True), ("xs:double", "16777216", "16777217", False),
    ("xs:double", "1E-3", "0.001", True), ("xs:double", "1", "-1", False),
    ("xs:duration", "P1Y", "P12M", True), ("xs:duration", "PT60S", "PT1M", True),
    ("xs:duration", "P1M", "P30D", False), ("xs:duration", "P1D", "PT24H", True),
    ("xs:duration", "-P1D", "P1D", False), ("xs:duration", "PT0S", "P0D", True),
    ("xs:duration", "PT1.50S", "PT1.5S", True), ("xs:duration", "-P0D", "P0M", True),
    ("xs:dateTime", "2024-01-01T12:00:00Z", "2024-01-01T13:00:00+01:00", True),
    ("xs:dateTime", "2024-01-01T12:00:00", "2024-01-01T12:00:00Z", False),
    ("xs:dateTime", "2023-12-31T24:00:00", "2024-01-01T00:00:00", True),
    ("xs:dateTime", "2024-01-01T12:00:00.50", "2024-01-01T12:00:00.5", True),
    ("xs:dateTime", "2024-02-28T23:30:00-01:00", "2024-02-29T00:30:00Z", True),
    ("xs:dateTime", "2023-02-28T23:30:00-01:00", "2023-03-01T00:30:00Z", True),
    ("xs:dateTime", "1999-12-31T23:59:59-14:00", "2000-01-01T13:59:59Z", True),
    ("xs:date", "2024-01-01Z", "2024-01-01+00:00", True), ("xs:date", "2024-01-01", "2024-01-01Z", False),
    ("xs:date", "2024-01-02+13:00", "2024-01-01-11:00", True), ("xs:date", "2024-01-01", "2024-01-02", False),
    ("xs:time", "12:00:00Z", "13:00:00+01:00", True), ("xs:time", "24:00:00", "00:00:00", True),
    ("xs:time", "12:00:00", "12:00:00.0", True), ("xs:time", "12:00:00", "12:00:00Z", False),
    ("xs:gYear", "2024", "2024Z", False), ("xs:gYear", "2024Z", "2024+00:00", True),
    ("xs:gYear", "2024", "2025", False), ("xs:gYearMonth", "2024-05Z", "2024-05-00:00", True),
    ("xs:gYearMonth", "2024-05", "2024-06", False), ("xs:gMonthDay", "--02-29Z", "--02-29+00:00", True),
    ("xs:gMonthDay", "--02-28", "--02-29", False), ("xs:gDay", "---15Z", "---15+00:00", True),
    ("xs:gDay", "---15", "---16", False), ("xs:gMonth", "--05Z", "--05+00:00", True),
    ("xs:gMonth", "--05", "--06", False),
    ("xs:hexBinary", "0a", "0A", True), ("xs:hexBinary", "0a", "0b", False),
    ("xs:base64Binary", "AQID", "AQ ID", True), ("xs:base64Binary", "AQID", "aqid", False),
    ("xs:anyURI", "urn:a", "urn:A", False), ("xs:anyURI", "urn:a", " urn:a", True),
    ("xs:QName", "p:a", "q:a", True), ("xs:QName", "p:a", "a", False), ("xs:QName", "p:a", "p:b", False),
    ("xs:NMTOKENS", "a b", "a  b", True), ("xs:NMTOKENS", "a b", "b a", False),
    ("ints", "1 2", "01 +2", True), ("ints", "1 2", "12", False), ("ints", "1", "1 1", False),
    ("either", "1", "01", True), ("either", "1", "1.0", False), ("either", "a", "b", False),
    ("eithers", "1 a", "01 a", True), ("eithers", "1 a", "1.0 a", False),
    ("few", "1 2", "1 02", True), ("few", "1 2", "2 1", False), ("short", "1", "01", True),
    ("short", "1", "1.0", False), ("money", "1.5", "1.50", True), ("money", "1.5", "15", False),
    ("xs:anySimpleType", "1", "01", False), ("xs:anySimpleType", "x", "x", True),
]

# Where an outside checker does not find two values to be one: by type and the two spellings.
BY_TEXT = "Xerces-C compares the texts of this type and not the values"
DIFFERENCES = {
    "xerces": {
        ("ints", "1 2", "01 +2"): BY_TEXT, ("eithers", "1 a", "01 a"): BY_TEXT,
        ("few", "1 2", "1 02"): BY_TEXT,
        ("xs:base64Binary", "AQID", "AQ ID"): BY_TEXT, ("xs:hexBinary", "0a", "0A"): BY_TEXT,
        ("xs:double", "1E-3", "0.001"): "Xerces-C reads 1E-3 and 0.001 as two numbers",
        ("xs:float", "16777216", "16777217"): "Xerces-C compares floats as doubles",
        ("xs:time", "24:00:00", "00:00:00"): "Xerces-C carries 24:00:00 into the next day",
        ("xs:dateTime", "2023-12-31T24:00:00", "2024-01-01T00:00:00"): "24:00:00 is not carried over",
        **{(t, a, b): BY_TEXT for t, a, b, same in PAIRS if t == "xs:duration" and same},
        **{(t, a, b): "Xerces-C does not take +00:00 for Z here" for t, a, b, same in PAIRS
           if t in ("xs:gDay", "xs:gMonth", "xs:gMonthDay", "xs:gYear", "xs:gYearMonth") and same},
    },
    "xmllint": {
        ("xs:float", "-0", "0"): "libxml2 has two zeros",
        ("xs:dateTime", "2023-12-31T24:00:00", "2024-01-01T00:00:00"): "24:00:00 is not carried over",
        ("xs:time", "24:00:00", "00:00:00"): "24:00:00 is not carried over",
        ("xs:time", "12:00:00Z", "13:00:00+01:00"): "libxml2 does not count the zone of a time",
    },
}


def files(folder):
    """A group for each pair: elements in the first half, attributes in the second."""
    groups, rows = [], []
    for number, (type_, a, b, _) in enumerate(PAIRS * 2):
        element = number < len(PAIRS)
        inner = (f'<xs:sequence><xs:element name="n" type="{type_}"/></xs:sequence>' if element
                 else f'<xs:attribute name="n" type="{type_}"/>')
        unique = constraint("unique", f"k{number}", "r", ["n" if element else "@n"])
        groups.append(f'<xs:element name="g{number}"><xs:complexType><xs:sequence>'
                      f'<xs:element name="r" maxOccurs="unbounded"><xs:complexType>{inner}</xs:complexType>'
                      f'</xs:element></xs:sequence></xs:complexType>{unique}</xs:element>')
        row = "".join(f"<r><n>{v}</n></r>" if element else f'<r n="{v}"/>' for v in (a, b))
        rows.append(f"<g{number}>{row}</g{number}>")
    content = "".join(groups)
    xsd = (f'<xs:schema {XS}><xs:element name="t"><xs:complexType><xs:sequence>{content}</xs:sequence>'
           f'</xs:complexType></xs:element>{LISTS}</xs:schema>')
    spaces = 'xmlns:p="urn:p" xmlns:q="urn:p"'
    xml = f"<t {XSI} {XS} {spaces}>\n" + "\n".join(rows) + "</t>\n"
    return write(folder, "values.xsd", xsd), write(folder, "values.xml", xml)


def lines_of(words, pattern):
    return {int(line) for line in re.findall(pattern, "".join(run_words(words)[1:]))}


def run(count, folder):
    xsd, xml = files(folder)
    status, told = check_json("--most", "1000", xsd, xml)
    count.expect("values, status", status, 1)
    found = {r["constraint"]: (r["kind"], r["line"]) for r in told[0]["reports"]}
    outside = {"xmllint": lines_of(["xmllint", "--noout", "--schema", xsd, xml], r"values.xml:(\d+): element r"),
               "xerces": lines_of([XERCES, xsd, xml], r"(?m)^(\d+): ")}
    for number, (type_, a, b, same) in enumerate(PAIRS * 2):
        what = f"{'element' if number < len(PAIRS) else 'attribute'} of {type_} {a!r} {b!r}"
        count.expect(what, found.get(f"k{number}"), (4, number + 2) if same else None)
        for who, lines in outside.items():
            differs = (type_, a, b) in DIFFERENCES[who]
            count.expect(f"{what} by {who}", (number + 2 in lines) is not same, differs)
