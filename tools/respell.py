#!/usr/bin/env python3
"""Brings the names of definitions and lemmas to snake case, behind the kit's port.py: `areasFit` becomes `areas_fit`.

    python3 tools/respell.py [FOLDER]     the folder that has crates/; without one, this repository

Types and facts keep their capital, functions of src/, exported names and strings stay as they are. port.py took the dash out of
some lemmas' names, as `on-some`; where a definition comes to that very name the lemma gets its dash back. It was run once.
"""
import pathlib
import re
import sys

TOP = pathlib.Path(sys.argv[1] if len(sys.argv) > 1 else pathlib.Path(__file__).resolve().parent.parent)
# Names of lemmas, of examples and of what a proof names for itself, which fall together with a definition's new name.
DASHED = """all_found all_read bytes_read cut_off end_seen first_byte four_bytes gap_length goes_on in_order in_place is_free
is_open is_read keys_in look_up no_text on_some one_field one_key plain_cell plain_end reads_as second_parts stands_at
start_gives test_parts test_read too_long two_bytes""".split()
WORD = re.compile(r"(?<![\w'-])[A-Za-z_][\w']*(?:-[\w']+)*")
STRING = re.compile(r"""("(?:[^"\\]|\\.)*"|b'(?:[^'\\]|\\.)')""")


def snake(name):
    """A name part by part; a part that begins with a capital is a type's or a fact's."""
    if name == "All-getD":
        return "All-get_or"
    parts = []
    for part in name.split("-"):
        if re.match(r"_?[a-z][\w']*$", part) and re.search(r"[A-Z]", part):
            part = re.sub(r"(?<=[a-z0-9'])([A-Z])", r"_\1", part).lower()
        parts.append(part)
    return "-".join(parts)


def respell(text, antt):
    def word(found):
        name = found.group(0)
        behind = text_of[0][:found.start()]
        if antt and name in DASHED and not behind.endswith("."):
            return name.replace("_", "-")
        return snake(name)

    pieces = STRING.split(text)
    for at in range(0, len(pieces), 2):
        text_of = [pieces[at]]
        pieces[at] = WORD.sub(word, pieces[at])
    return "".join(pieces)


def main():
    for path in sorted(TOP.glob("crates/*/*/**/*")):
        if path.suffix in (".rt", ".antt") and "out" not in path.parts:
            lines = path.read_text(encoding="utf-8").split("\n")
            antt = path.suffix == ".antt"
            done = [respell(line, antt) for line in lines]
            if done != lines:
                path.write_text("\n".join(done), encoding="utf-8")


if __name__ == "__main__":
    main()
