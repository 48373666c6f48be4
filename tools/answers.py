#!/usr/bin/env python3
"""Turns the older proof files of a crate, one Proof.antt for each function, into Invariants.antt and Answers.antt.

    python3 tools/answers.py CRATE [FUNCTION..]     in a checkout with crates/; what the crate stands on must be proved

It asks the kit for the old and the new name of each goal and step (rt check --generated, --old-names). The names of the old
goals are read from the commit before the spelling was turned (docs/PORT.md). An answer that only says `search rules` is left
out, since the check tries that by itself. What does not fit is for the reader: the check says so.
"""
import json
import os
import pathlib
import re
import subprocess
import sys
import tempfile

TOP = pathlib.Path.cwd()
OLD = os.environ.get("OLD_COMMIT", "8d9393cb2eeba6080a0e41e2f06df36236009ce7")
NAME = r"[^\s(){}\[\],;.«»]+"


def norm(name):
    return name.replace("_", "-")


def declarations(text):
    """The lines of the head, and the declarations: each a list of lines with the comment above it."""
    head, found, comment = [], [], []
    for line in text.split("\n"):
        if re.match(r"(pub )?(use|mod) ", line):
            head.append(line)
        elif line.startswith("--"):
            comment.append(line)
        elif not line.strip():
            if found and not comment:
                found[-1].append(line)
            elif comment:
                comment.append(line)
        elif line[0] != " " and line[0] not in ")]}" and not same_declaration(line, found, comment):
            found.append(comment + [line])
            comment = []
        else:
            found[-1] += comment + [line]
            comment = []
    return head, found


def same_declaration(line, found, comment):
    """Whether a line at the left edge is a clause or an `unfolding` line of the declaration that is open."""
    if not found:
        return False
    if line.startswith("unfolding "):
        return True
    own = next(l for l in found[-1] if not l.startswith("--") and l.strip())
    name = re.match(rf"(?:unfoldable |pub |abbrev )*({NAME})", own).group(1)
    return re.match(rf"{re.escape(name)}( |$)", line) is not None and not re.match(rf"{re.escape(name)} :", line)


def first_lines(text):
    """The comment at the head of the file."""
    lines = []
    for line in text.split("\n"):
        if not line.startswith("--"):
            break
        lines.append(line)
    return lines


def older(need):
    """The name that a loop's goals had before they were called init, preserved and smaller."""
    for before, now in (("-holds", "-init"), ("-again", "-preserved"), ("-less", "-smaller")):
        need = re.sub(rf"^(loop\d*){before}", rf"\1{now}", need)
    return need


class Names:
    """What the kit says of one function: steps by place, goals, loops."""

    def __init__(self, told):
        self.told = told
        self.asked = {}
        self.needs = {norm(old): new for old, new in told.get("needs", [])}
        self.at = {norm(old): place for (old, _), place in zip(told.get("needs", []), told.get("asked_at", []))}
        self.parents = {}
        self.steps = {}
        self.typed = dict(zip(told.get("places_by_name", []), told.get("typed", [])))
        self.place, self.number = {}, {}
        for old, new in told.get("needs", []):
            fields = told.get("asked", {}).get(old) or told.get("asked", {}).get(new)
            if fields:
                self.asked[norm(old)] = fields
        for number, place in enumerate(told.get("places", [])):
            own, parent, (old, new) = place[0], place[1], place[2]
            self.parents[own] = (parent, old, new)
            if old:
                self.steps.setdefault(norm(old), []).append(new)
            self.place[own] = told["places_by_name"][number]
            self.number[own] = number
        loops = zip(told.get("loops", []), told.get("changed", []))
        self.loops = {norm(old): (new, names, changed) for ((old, new), names), changed in loops}

    def way(self, need):
        """The numbers of the places on the way to a goal, the goal's own first."""
        place = self.at.get(need)
        own, found = place[0] if place else None, []
        while own in self.parents:
            found.append(self.number[own])
            own = self.parents[own][0]
        return found

    def steps_to(self, need):
        """Old step to new step on the way to a goal, and elsewhere where only one name is possible."""
        found = {old: new[0] for old, new in self.steps.items() if len(set(new)) == 1}
        for number in reversed(self.way(need)):
            old, new = self.told["places"][number][2]
            if old:
                found[norm(old)] = new
        return found

    def numbers(self, need):
        """The numbers of the places on the way to a goal, its own last; of all places, backwards, where no goal is named."""
        return reversed(self.way(need) if need else range(len(self.told.get("places", []))))

    def fields_of_arms(self, need):
        """Each field of an arm of a match on the way to a goal: the arm, the field, the old step, and its path there."""
        for number in self.numbers(need):
            arm = self.told["arms"][number]
            for field, step, path in arm[2] if isinstance(arm, list) else []:
                yield arm[0], field, norm(step), tuple(path)

    def arms_to(self, need):
        """For an old step that an arm of a match stands for now: the arm, and its fields by the older path."""
        found = {}
        for arm, field, step, path in self.fields_of_arms(need):
            if path:
                found.setdefault(step, {})[path] = (arm, field)
        return found

    def own_to(self, need):
        """For an old step of a match: the arm, and its field that says which variants it is not."""
        return {step: (arm, field) for arm, field, step, path in self.fields_of_arms(need) if need and not path}

    def callees_to(self, need):
        """The function that a step calls."""
        places = [self.told["places"][number] for number in self.numbers(need)]
        return {norm(place[2][0]): place[3] for place in places if isinstance(place[3], str)}

    def clauses_to(self, need):
        """For an old step: its fields that have another name now."""
        found = {}
        for number in self.numbers(need):
            _, _, (old, _), _, clauses = self.told["places"][number][:5]
            if clauses:
                found.setdefault(norm(old), {}).update(dict(clauses))
        return found

    def known(self, need):
        """The variable that an old step `..known` speaks of at a goal."""
        place = self.at.get(need)
        if not place:
            return {}
        for own in (place[0], place[1]):
            name = self.place.get(own, own)
            if name in self.typed:
                return {norm(step): variable for variable, step in self.typed[name]}
        return {}


def as_record(body, fields):
    """An answer that is a tuple, as a record with these fields."""
    start = re.search(r"(?:^|\bin)\s*\((?!.*\bin\s*\()", body, re.S)
    at = body.index("(", start.start()) if start else None
    if at is None:
        return body
    depth, parts, begun = 0, [], at + 1
    for place in range(at, len(body)):
        if body[place] in "([{":
            depth += 1
        elif body[place] in ")]}":
            depth -= 1
            if depth == 0:
                parts.append(body[begun:place])
                break
        elif body[place] == "," and depth == 1:
            parts.append(body[begun:place])
            begun = place + 1
    if body[place + 1:].strip():
        return body
    parts = [part.strip() for part in parts if part.strip()]
    if len(parts) != len(fields):
        return body
    return body[:at] + "record { " + "; ".join(f"{f} = {p}" for f, p in zip(fields, parts)) + " }"


class Turn:
    """Turns the terms of one answer."""

    def __init__(self, names, need):
        self.steps, self.known = names.steps_to(need), names.known(need)
        self.arms, self.clauses = names.arms_to(need), names.clauses_to(need)
        self.callees, self.own = names.callees_to(need), names.own_to(need)
        self.parameters, self.pre = names.told.get("params", {}), (names.told.get("pre") or {}).get("fields", [])
        self.arguments = {}
        for before, now in names.told.get("args", []):
            if before.startswith(".args ."):
                self.arguments[before[7:]] = now[7:]
        self.heads, self.aliases = {"c"}, {}

    def term(self, body):
        """Takes `.before` out, and gives each step its new name. What a test of `!b` says is said of b by itself now."""
        body = re.sub(r"(?<=[\w'])(\.before)+(?![\w'-])", "", body)
        body = re.sub(r"\.last((?:\.1)*)(?![\w'-])", r".new\1", body)
        body = re.sub(r"(\.if\d+)\.taken\b", r"\1.true", re.sub(r"(\.if\d+)\.left\b", r"\1.false", body))
        for name, of in re.findall(r"let ([\w'-]+) = ([\w'-]+) in", body):
            if of in self.heads:
                self.heads.add(name)
        for name, of in re.findall(r"let ([\w'-]+) = ([\w'-]+(?:\.[\w'«»-]+)+) in", body):
            head, *rest = of.split(".")
            if head in self.heads:
                self.aliases[name] = (norm(rest[0]).strip("«»"), rest[1:])
            elif head in self.aliases:
                self.aliases[name] = (self.aliases[head][0], self.aliases[head][1] + rest)
        body = re.sub(r"(?<![\w'.-])[A-Za-z_][\w'-]*(?:[₀-₉])*(?:\.[\w'«»-]+)+", self.path, body)
        for name in re.findall(r"let (\w+) = [\w-]+\.(?:new|auto)(?:\.1)+ in", body):
            if len(re.findall(rf"(?<![\w.'-]){name}(?![\w'-])", body)) == 1:
                body = re.sub(rf" *let {name} = [\w-]+\.(?:new|auto)(?:\.1)+ in\n?", "", body)
        told = r"not-(?:true|false) _ ([\w'.-]+\.(?:true|false))-raw"
        body = re.sub(rf"\({told}\)", r"\1", body)
        return re.sub(rf"(?<![\w'-]){told}", r"\1", body)

    def path(self, found):
        head, *rest = found.group(0).split(".")
        if head in self.heads:
            step, own, rest = norm(rest[0]).strip("«»"), [head], rest[1:]
        elif head in self.aliases:
            step, own, before = self.aliases[head][0], None, self.aliases[head][1]
            if before:
                whole = self.path(re.match(r".*", ".".join(["c", step] + before + rest)))
                return whole if whole != ".".join(["c", step] + before + rest) else found.group(0)
        else:
            return found.group(0)
        if step not in self.steps and step.lower() in self.steps:
            step = step.lower()
        if step in self.own and rest and re.match(r"keys\d*$", rest[0]):
            return "(opened " + ".".join((own or ["c"]) + list(self.own[step]) + rest) + ")"
        if step.endswith("-lem") and step not in self.steps and step[:-4] in self.steps:
            step = step[:-4]
        if step == "args" and rest and rest[0] in self.arguments:
            rest[0] = self.arguments[rest[0]]
        if step == "args" and rest:
            rest[0] = rest[0].replace("-", "_")
        if step == "requires" and rest and rest[0].isdigit() and self.pre:
            rest[0] = self.pre[int(rest[0])]
        if rest[:1] in (["new"], ["auto"]) and self.callees.get(step) in self.parameters:
            at = 1
            while rest[at:at + 1] == ["1"]:
                at += 1
            if rest[at:at + 1] == ["0"]:
                rest = [rest[0], self.parameters[self.callees[step]][at - 1]] + rest[at + 1:]
        if step in self.known and rest[:1] == ["given"]:
            return ".".join(["c", "type_inv", self.known[step]] + rest[1:])
        for size in range(len(rest), 0, -1):
            arm = self.arms.get(step, {}).get(tuple(rest[:size]))
            if arm:
                return ".".join((own or ["c"]) + [arm[0], arm[1]] + rest[size:])
        if rest and rest[0] in self.clauses.get(step, {}):
            rest = [self.clauses[step][rest[0]]] + rest[1:]
        if not own:
            return ".".join([head] + rest)
        if step in self.arms and all(field.isdigit() or field == "given" for field in rest):
            return ".".join(own + [next(iter(self.arms[step].values()))[0]])
        return ".".join(own + [self.steps.get(step, found.group(0).split(".")[1])] + rest)


def substitute(body, names):
    for old, new in names.items():
        if old != "_":
            body = re.sub(rf"(?<![\w'.-]){re.escape(old)}(?![\w'₀-₉-])", lambda found: new, body)
    return body


def turn(crate, function, path, names, old_text):
    # that an array has the length of its type is known by itself now
    text = re.sub(r"\((?:sixteen|thirty_two) ([\w.'-]+) _ [\w.'-]+\)", "(search rules)", path.read_text(encoding="utf-8"))
    cited = r"let (\w+) = (?:sixteen|thirty_two) ([\w.'-]+) _ [\w.'-]+ in"
    text = re.sub(cited, r"let \1 : length \2.list ≡ 16 = search rules in", text)
    owed = r"(let \w+ : length [\w.'-]+\.list ≡ 16 =) [^\n]*\.(?:well-formed|type-inv)[\w.]* in"
    text = re.sub(owed, r"\1 search rules in", text)
    text = re.sub(r"^(use Rattle\.open_scopes\.proofs\.Places\.\{)sixteen, ", r"\1", text, flags=re.M)
    text = re.sub(r"^use Rattle\.open_scopes\.proofs\.Places\.\{sixteen\}\n", "", text, flags=re.M)
    comment = first_lines(text)
    head, found = declarations("\n".join(text.split("\n")[len(comment):]))
    old_needs = re.findall(r":\s+tie\.Need-([\w'-]+)", old_text)
    turned, answers, invariants, said = [], [], [], []
    at = 0
    for lines in found:
        own = "\n".join(lines).rstrip()
        code = "\n".join(l for l in lines if not l.startswith("--"))
        need = re.search(r":\s+tie\.Need-([\w'-]+)[^\n]*", code)
        loop = re.search(r":\s+tie\.(invariant|decreases)-([\w'-]+)", code)
        if re.search(r"tie\.close|tie\.spec", code):
            continue
        if need:
            old = older(norm(old_needs[at]))
            at += 1
            if old not in names.needs and norm(need.group(1)) in names.needs:
                old = norm(need.group(1))
            answer = turn_answer(own, old, names, said)
            if answer:
                answers.append(answer)
        elif loop:
            invariants.append(turn_invariant(own, loop.group(1), norm(loop.group(2)), names, said))
        elif "statement" in code.split("=")[0] and "-spec" in code:
            continue
        else:
            turned.append(Turn(names, None).term(own))
    uses = [l for l in head if not re.search(r"\.(Statement|Tie)(\.| as )|Author\.(Rules|Needs)\.", l)]
    folder = path.parent
    module = ".".join(folder.relative_to(TOP / "crates" / crate / "proofs").parts)
    rules = "use Rattle.std.proofs.Common.{rules}"
    if answers or turned:
        body = "\n\n".join(turned + answers)
        if "(opened " in body:
            uses.append("use borrow.Enum.Refused.{opened}")
        first = [rules] if re.search(r"\brules\b", body) else []
        out = comment + first + uses + [f"use Rattle.{crate}.proofs.{module}.Goals as goal", "", body, ""]
        (folder / "Answers.antt").write_text("\n".join(out), encoding="utf-8")
    if invariants:
        out = comment + uses + [f"use Rattle.{crate}.proofs.{module}.Given as goal", "", "\n\n".join(invariants), ""]
        (folder / "Invariants.antt").write_text("\n".join(out), encoding="utf-8")
    path.unlink()
    for line in said:
        print(f"{crate}::{function}: {line}")


def turn_answer(own, old, names, said):
    name = re.search(rf"({NAME})\s*:\s+tie\.Need-", own).group(1)
    new = names.needs.get(old)
    comment = [l for l in own.split("\n") if l.startswith("--")]
    code = "\n".join(l for l in own.split("\n") if not l.startswith("--"))
    unfolding = re.findall(r"^unfolding [^\n]*", code, re.M)
    clause = re.search(rf"^{re.escape(name)}((?: [^\n=]*)?) =(.*)", code, re.M | re.S)
    if not clause:
        said.append(f"no clause of {name}")
        return "\n".join(comment + ["-- " + l for l in code.split("\n")])
    parameters, body = clause.group(1).split(), clause.group(2)
    if body.strip() in ("search rules", "search needs") and not unfolding:
        return None
    if new is None:
        said.append(f"{name}: no goal for {old}")
        return "\n".join(comment + ["-- no goal: " + l for l in code.split("\n")])
    parameters = [p for p in parameters if p == parameters[0] or re.search(rf"(?<![\w']){re.escape(p)}(?![\w'])", body)]
    body = Turn(names, old).term(body)
    fields = names.asked.get(old)
    if fields:
        body = as_record(body, fields)
    return "\n".join(comment + [f"pub {new} : goal.{new}"] + unfolding + [f"{new} {' '.join(parameters)} ={body}".rstrip()])


def turn_invariant(own, kind, loop, names, said):
    comment = [l for l in own.split("\n") if l.startswith("--")]
    code = "\n".join(l for l in own.split("\n") if not l.startswith("--"))
    name = re.search(rf"({NAME})\s*:\s+tie\.", code).group(1)
    unfolding = re.findall(r"^unfolding [^\n]*", code, re.M)
    clause = re.search(rf"^{re.escape(name)}((?: [^\n=]*)?) =(.*)", code, re.M | re.S)
    new, variables, changed = names.loops.get(loop, (loop, [], []))
    parameters, body = clause.group(1).split(), clause.group(2)
    entry = list(variables)
    moved = [v for v, c in zip(variables, changed) if c]
    if len(parameters) > len(entry) + len(moved):
        # a value that the older compiler kept between
        parameters = [p for p in parameters if not re.match(r"t\d+[₀-₉]*$", p)]
    if len(parameters) != len(entry) + len(moved):
        said.append(f"{name}: {len(parameters)} parameters, {len(entry)} variables and {len(moved)} that change")
    table = {}
    for p, v, c in zip(parameters, entry, changed):
        table[p] = f"l.initial.{v}" if c else f"l.{v}"
    for p, v in zip(parameters[len(entry):], moved):
        table[p] = f"l.{v}"
    marks = {p: f"\u0001{k}\u0002" for k, p in enumerate(table)}
    body = substitute(body, marks)
    for p, mark in marks.items():
        body = body.replace(mark, table[p])
    return "\n".join(comment + [f"abbrev pub {kind}-{new} : goal.{kind}-{new}"] + unfolding + [f"{kind}-{new} l ={body}"])


def run(words, folder):
    return subprocess.run(words, cwd=folder, capture_output=True, text=True, errors="replace")


def main():
    crate, only = sys.argv[1], sys.argv[2:]
    room = TOP / "crates" / crate
    files = sorted((room / "proofs").rglob("Proof.antt"))
    if not files:
        return
    with tempfile.TemporaryDirectory() as folder:
        said = run(["rt", "check", "--generated", folder, "--old-names"], room)
        path = pathlib.Path(folder) / "names.json"
        if not path.is_file():
            print(f"{crate}: no names: {said.stdout[-1500:]}{said.stderr[-500:]}")
            raise SystemExit(1)
        told = json.loads(path.read_text())
    for file in files:
        function = ".".join(file.parent.relative_to(room / "proofs").parts)
        if only and function not in only:
            continue
        key = f"Rattle-{crate}-proofs.{function}.Lts"
        if key not in told:
            print(f"{crate}::{function}: no names for it")
            continue
        old = run(["git", "show", f"{OLD}:crates/{crate}/{file.relative_to(room)}"], TOP).stdout
        turn(crate, function, file, Names(told[key]), old)


if __name__ == "__main__":
    main()
