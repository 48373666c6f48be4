"""Hostile input: entities that grow, entities and schemas from elsewhere, names that are no texts."""
import time

from kit import XS, check, schema, write

INT = '<xs:element name="n" type="xs:string"/>'


def laughs(levels, width):
    rows = ['<!ENTITY e0 "ha">']
    rows += [f'<!ENTITY e{i} "{f"&e{i - 1};" * width}">' for i in range(1, levels)]
    return f'<!DOCTYPE t [{"".join(rows)}]><t><r><n>&e{levels - 1};</n></r></t>'


def run(count, folder):
    xsd = write(folder, "t.xsd", schema(INT))
    secret = write(folder, "secret.txt", "a secret")
    billion = laughs(12, 10)
    attribute = billion.replace("<n>&e11;</n>", '<n a="&e11;"/>')
    cases = [
        ("billion laughs", billion, 5, "entity"),
        ("billion laughs in an attribute", attribute, 5, "entity"),
        ("a long entity", f'<!DOCTYPE t [<!ENTITY e "{"x" * 5000}">]><t><r><n>&e;</n></r></t>', 5, "longer"),
        ("an entity of itself", '<!DOCTYPE t [<!ENTITY e "&e;">]><t><r><n>&e;</n></r></t>', 3, ""),
        ("an external entity", f'<!DOCTYPE t [<!ENTITY e SYSTEM "{secret}">]><t><r><n>&e;</n></r></t>', 3,
         "--entities"),
        ("an entity of the network", '<!DOCTYPE t [<!ENTITY e SYSTEM "http://192.0.2.1/e">]><t><r><n>&e;</n>'
         '</r></t>', 3, "--entities"),
        ("an external DTD", '<!DOCTYPE t SYSTEM "t.dtd"><t/>', 3, "--entities"),
        ("a DTD of the network", '<!DOCTYPE t SYSTEM "http://192.0.2.1/t.dtd"><t/>', 3, "--entities"),
        ("a schema of the network", '<t xmlns:xsi="http://www.w3.org/2001/XMLSchema-instance" '
         'xsi:noNamespaceSchemaLocation="http://192.0.2.1/t.xsd"/>', 0, ""),
        ("deep elements", "<t>" + "<a>" * 60000 + "</a>" * 60000 + "</t>", 5, "deep"),
        ("some entities", '<!DOCTYPE t [<!ENTITY e "x">]><t><r><n>&e;&amp;&lt;</n></r></t>', 0, ""),
        ("many predefined entities", f'<t><r><n>{"&amp;" * 60000}</n></r></t>', 0, ""),
    ]
    for name, text, due, words in cases:
        began = time.time()
        status, out, _ = check(xsd, write(folder, "h.xml", text))
        count.expect(name, status, due)
        count.expect(f"{name}, no secret", "secret" in out.replace("secret.txt", ""), False)
        count.expect(f"{name}, words", words in out, True)
        count.expect(f"{name}, in two seconds", time.time() - began < 2, True)
    status, out, _ = check("--entities", xsd, write(folder, "h.xml", (
        f'<!DOCTYPE t [<!ENTITY e SYSTEM "{secret}">]><t><r><n>&e;</n></r><r><n>a secret</n></r></t>')))
    count.expect("an external entity that was asked for", "'a secret' was there before" in out, True)
    schemas(count, folder)


def schemas(count, folder):
    report = write(folder, "r.xml", "<t/>")
    network = f'<xs:schema {XS}><xs:include schemaLocation="http://192.0.2.1/x.xsd"/></xs:schema>'
    status, out, _ = check(write(folder, "n.xsd", network), report)
    count.expect("an included schema of the network", (status, "not read from the network" in out), (4, True))
    xml = (f'<xs:schema {XS}><xs:import namespace="http://www.w3.org/XML/1998/namespace" '
           'schemaLocation="http://www.w3.org/2001/xml.xsd"/><xs:element name="t"><xs:complexType>'
           '<xs:attribute ref="xml:lang"/></xs:complexType></xs:element></xs:schema>')
    status, out, _ = check(write(folder, "x.xsd", xml), write(folder, "l.xml", '<t xml:lang="en"/>'))
    count.expect("the schema of xml:lang", (status, out), (0, ""))
    began = time.time()
    body = laughs(12, 10).split("<t>")[0].replace("DOCTYPE t", "DOCTYPE xs:schema")
    grown = body + f'<xs:schema {XS}><xs:annotation><xs:documentation>&e11;</xs:documentation></xs:annotation>'
    status, _, _ = check(write(folder, "b.xsd", grown + "</xs:schema>"), report)
    count.expect("billion laughs in a schema", (status, time.time() - began < 2), (4, True))
