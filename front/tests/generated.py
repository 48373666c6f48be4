"""Random schemas and reports: the verdicts of xmllint and of Xerces-C beside ours.

Rows `a` and `b` stand in a root `t` and in groups `g`, which nest; constraints are on `t`, and on
`g` where they are unique. With everything handed in, and with a session for each constraint, the
same must be told. Texts of few values make some reports not valid.
"""
import random
import sys
from xml.parsers import expat

from kit import XS, Count, check_json, constraint, outside, write

# type, and texts of which some are the same value
TYPES = {
    "xs:decimal": ["1", "01", "1.0", "2", "-1", "2.50", "2.5"],
    "xs:integer": ["1", "+1", "2", "3", "003"],
    "xs:string": ["a", "b", "a ", "1", "01"],
    "xs:token": ["a", " a", "b", "a b", "a  b"],
    "xs:boolean": ["1", "true", "0", "false"],
    "xs:date": ["2024-01-01", "2024-01-02", "2024-01-01Z", "2024-01-01+00:00"],
    "xs:dateTime": ["2024-01-01T12:00:00Z", "2024-01-01T13:00:00+01:00", "2024-01-01T12:00:00"],
    "xs:anyURI": ["urn:a", "urn:b"],
}
SELECTORS = ["a", "b", "g/a", ".//a", "*", ".//b", "a|b", "g/*", "./a", ".//g/a", "g/g/b", "a|g/a", ".//*"]
FIELDS = ["n", "m", "@x", "@y", "./n", "n|m", ".//n", "@x|@y", "*/@z"]

# Seeds whose verdict an outside checker does not share, and why.
OWN = "Xerces-C lets .//* take the element that it starts from"
DIFFERENCES = {("xerces", 16): OWN, ("xerces", 54): OWN, ("xerces", 59): OWN}


def prefixed(path, space):
    """The path with `p:` before each element's name, where they are in a namespace."""
    if not space:
        return path
    steps = []
    for step in path.replace("|", " | ").replace("/", " / ").split():
        plain = step in ("|", "/", ".", "*") or step.startswith("@")
        steps.append(step if plain else "p:" + step)
    return "".join(steps)


def make_constraints(random_, space):
    """On the root, and on groups."""
    refer = "p:" if space else ""
    root, keys = [], []
    for number in range(random_.randint(1, 4)):
        kind = random_.choice(["unique", "key", "key", "keyref"])
        fields = [prefixed(random_.choice(FIELDS), space) for _ in range(random_.randint(1, 2))]
        selector = prefixed(random_.choice(SELECTORS), space)
        if kind == "keyref" and keys:
            name, width = random_.choice(keys)
            fields = (fields * 2)[:width]
            root.append(constraint("keyref", f"c{number}", selector, fields, refer + name))
        else:
            kind = "unique" if kind == "keyref" else kind
            keys.append((f"c{number}", len(fields)))
            root.append(constraint(kind, f"c{number}", selector, fields))
    group = ""
    if random_.random() < 0.5:
        group = constraint("unique", "cg", prefixed(random_.choice(["a", "b", "*", ".//a"]), space),
                           [prefixed(random_.choice(FIELDS), space)])
    return "".join(root), group


def make_schema(random_, space, types):
    root, group = make_constraints(random_, space)
    q = "p:" if space else ""
    target = 'targetNamespace="urn:p" xmlns:p="urn:p"' if space else ""
    rows = "".join(f'<xs:element name="{name}" type="{q}row"/>' for name in "ab")
    content = (f'<xs:choice minOccurs="0" maxOccurs="unbounded"><xs:element ref="{q}g"/>{rows}</xs:choice>')
    values = "".join(
        f'<xs:element name="{name}" minOccurs="0"><xs:complexType><xs:simpleContent>'
        f'<xs:extension base="{types[name]}"><xs:attribute name="z" type="{types["z"]}"/></xs:extension>'
        '</xs:simpleContent></xs:complexType></xs:element>' for name in "nm")
    attributes = "".join(f'<xs:attribute name="{name}" type="{types[name]}"/>' for name in "xy")
    return (f'<xs:schema {XS} {target} elementFormDefault="qualified">'
            f'<xs:complexType name="row"><xs:sequence>{values}</xs:sequence>{attributes}</xs:complexType>'
            f'<xs:complexType name="group">{content}</xs:complexType>'
            f'<xs:element name="g" type="{q}group">{group}</xs:element>'
            f'<xs:element name="t" type="{q}group">{root}</xs:element></xs:schema>')


def make_row(random_, types, spread):
    def value(name):
        texts = TYPES[types[name]]
        text = random_.choice(texts)
        return text if random_.random() > spread or types[name] != "xs:string" else f"{text}{random_.random()}"
    name = random_.choice("ab")
    attributes = "".join(f' {x}="{value(x)}"' for x in "xy" if random_.random() < 0.8)
    inner = "".join(f'<{x} z="{value("z")}">{value(x)}</{x}>' for x in "nm" if random_.random() < 0.8)
    return f"<{name}{attributes}>{inner}</{name}>"


def make_group(random_, types, depth, spread):
    parts = []
    for _ in range(random_.randint(0, 3)):
        if depth > 0 and random_.random() < 0.35:
            parts.append(f"<g>{make_group(random_, types, depth - 1, spread)}</g>")
        else:
            parts.append(make_row(random_, types, spread))
    return "\n".join(parts)


def make(seed):
    random_ = random.Random(seed)
    space = random_.random() < 0.5
    spread = random_.choice([0, 1])
    pool = ["xs:string"] if spread else list(TYPES)
    types = {name: random_.choice(pool) for name in "nmxyz"}
    xsd = make_schema(random_, space, types)
    declared = ' xmlns="urn:p"' if space else ""
    return xsd, f"<t{declared}>\n{make_group(random_, types, 3, spread)}</t>\n"


def places_of(text):
    """The line of each element by its path, with numbers where a parent has several of a name."""
    parser, root, lines = expat.ParserCreate(), [], {}
    stack = [root]

    def start(name, _):
        node = (name, parser.CurrentLineNumber, [])
        stack[-1].append(node)
        stack.append(node[2])

    def walk(nodes, above):
        names, met = [node[0] for node in nodes], {}
        for name, line, children in nodes:
            met[name] = met.get(name, 0) + 1
            path = f"{above}/{name}" + (f"[{met[name]}]" if names.count(name) > 1 else "")
            lines[path] = line
            walk(children, path)

    parser.StartElementHandler = start
    parser.EndElementHandler = lambda _: stack.pop()
    parser.Parse(text, True)
    walk(root, "")
    return lines


def in_order(told):
    """What is told, whichever session told it."""
    return [sorted(map(str, told[0][part])) for part in ("reports", "constraints", "faults", "stops")]


def expect_places(count, what, report, lines):
    """Its element, its scope's, and of kind 4 the earlier one, stand where it says."""
    count.expect(f"{what}, line", lines.get(report["path"]), report["line"])
    count.expect(f"{what}, scope", report["path"].startswith(report["scope"] + "/"), True)
    if report["kind"] == 4:
        count.expect(f"{what}, earlier", lines.get(report["earlier_path"]), report["earlier_line"])
        count.expect(f"{what}, earlier is another", report["earlier_path"] != report["path"], True)


def run(count, folder, seeds=range(120)):
    valid_ones = 0
    for seed in seeds:
        xsd, xml = make(seed)
        files = write(folder, f"g{seed}.xsd", xsd), write(folder, f"g{seed}.xml", xml)
        status, told = check_json(*files)
        valid_ones += status == 0
        count.expect(f"seed {seed}, status", status in (0, 1), True)
        other_status, other = check_json("--all", "--apart", *files)
        count.expect(f"seed {seed}, all handed in, each apart", (other_status, in_order(other)),
                     (status, in_order(told)))
        lines = places_of(xml)
        for report in told[0]["reports"]:
            expect_places(count, f"seed {seed}", report, lines)
        for who, valid in outside(*files).items():
            differs = (who, seed) in DIFFERENCES
            count.expect(f"seed {seed} by {who}: {valid}", valid is not (status == 0), differs)
    count.expect("some valid, some not", len(seeds) // 8 < valid_ones < len(seeds) * 7 // 8, True)


if __name__ == "__main__":
    import tempfile
    COUNT = Count()
    FOLDER = sys.argv[3] if len(sys.argv) > 3 else tempfile.mkdtemp()
    run(COUNT, FOLDER, range(int(sys.argv[1]), int(sys.argv[2])))
    print(f"{COUNT.passed} passed, {COUNT.failed} failed")
