"""What the tests of the command share: running it and the two outside checkers, schemas, counts."""
import json
import os
import subprocess

ROOT = os.path.dirname(os.path.dirname(os.path.dirname(os.path.abspath(__file__))))
ZOGRAXT = os.environ.get("ZOGRAXT", os.path.join(ROOT, "target/bin/zograxt"))
XERCES = os.environ.get("XERCES_CHECK", os.path.join(ROOT, "target/bin/xerces_check"))
XSI = 'xmlns:xsi="http://www.w3.org/2001/XMLSchema-instance"'
XS = 'xmlns:xs="http://www.w3.org/2001/XMLSchema"'


class Count:
    """Passed and failed; a failure is printed at once."""

    def __init__(self):
        self.passed = self.failed = 0

    def expect(self, what, found, due):
        if found == due:
            self.passed += 1
            return
        self.failed += 1
        print(f"{what}: {found!r}, and {due!r} is due")


def run(words, stdin=None, cwd=None):
    """Exit status, standard output and standard error; a run of over 20 seconds has status -99."""
    try:
        done = subprocess.run(words, input=stdin, capture_output=True, timeout=20, cwd=cwd)
    except subprocess.TimeoutExpired:
        return -99, "", ""
    return done.returncode, done.stdout.decode("utf-8", "replace"), done.stderr.decode("utf-8", "replace")


def check(*words, stdin=None, cwd=None):
    return run([ZOGRAXT, "check", *words], stdin, cwd)


def check_json(*words, stdin=None, cwd=None):
    """The status, and an object for each report."""
    status, out, _ = check("--json", *words, stdin=stdin, cwd=cwd)
    return status, [json.loads(line) for line in out.splitlines()]


def outside(schema, report):
    """Whether xmllint and Xerces-C take the report; None where they refuse the schema."""
    lint = run(["xmllint", "--noout", "--schema", schema, report])[0]
    own = run([XERCES, schema, report])[0]
    return {"xmllint": {0: True, 3: False, 4: False}.get(lint), "xerces": {0: True, 1: False}.get(own)}


def write(folder, name, text):
    path = os.path.join(folder, name)
    with open(path, "w", encoding="utf-8") as out:
        out.write(text)
    return path


def constraint(kind, name, selector, fields, refer=None):
    refers = f' refer="{refer}"' if refer else ""
    paths = "".join(f'<xs:field xpath="{field}"/>' for field in fields)
    return f'<xs:{kind} name="{name}"{refers}><xs:selector xpath="{selector}"/>{paths}</xs:{kind}>'


def schema(content, attributes="", more="", target="", constraints=None):
    """A root `t` with elements `r`, whose content is given. The default constraint: unique on `n`."""
    space = f'targetNamespace="{target}" xmlns:p="{target}"' if target else ""
    if constraints is None:
        constraints = constraint("unique", "k", "r", ["n"])
    return (f'<xs:schema {XS} {space} elementFormDefault="qualified"><xs:element name="t">'
            '<xs:complexType><xs:sequence><xs:element name="r" minOccurs="0" maxOccurs="unbounded">'
            f'<xs:complexType><xs:sequence>{content}</xs:sequence>{attributes}</xs:complexType>'
            f'</xs:element></xs:sequence></xs:complexType>{constraints}</xs:element>{more}</xs:schema>')
