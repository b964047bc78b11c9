#!/usr/bin/env python3
"""Brings the repository's own definitions, lemmas and fields in specs/ and proofs/ to snake case.

    python3 tools/respell.py [--list]

Run once, at the top of the repository, after the toolchain's own script of a move to another kit. A definition, lemma or field whose
name has an inner capital or a dash gets the words of its name in small letters, joined by '_'. Facts, which begin with a capital, and
the goals that answer files answer, keep their names. A name that would fall together with another is given in TAKEN, or in LEMMAS where
it is spelled so already.
"""
import pathlib
import re
import sys

WORD = r"[A-Za-z0-9_'₀-₉]"
NAME = rf"[a-z]{WORD}*(?:-{WORD}+)*"
DECLARED = re.compile(rf"^(?:abbrev +|unfoldable +)?(?:pub +)?({NAME}) :(?: (.*))?$")
INDENTED = re.compile(rf"^ +(?:abbrev +|unfoldable +)?(?:pub +)?({NAME}) : ")

# Names whose plain respelling is taken already.
TAKEN = {
    "tick-answer": "tick_answer_lem",
    "tick-clock": "tick_clock_lem",
    "tick-live": "tick_live_lem",
    "transfer-live": "transfer_live_lem",
    "figures-fit": "figures_fit_lem",
    "in-limits": "in_limits_lem",
    "on-core": "core_low",
}

# Lemmas of one file whose names a definition takes, where the file still has that definition under its old name.
LEMMAS = {"crates/engine/proofs/Naming.antt": ("allNone", {"all_none": "all_none_lem"})}

# Words of the library in names of lemmas, as the library spells them now, and the words of one file's imports.
WORDS = {"getD": "get_or", "sumBy": "sum_by"}
ALIASES = {
    "tickedBy": "ticked_by",
    "lapseTick": "lapse_tick",
    "roundsOf": "rounds_of",
    "wasSaid": "was_said",
    "wasDealt": "was_dealt",
}


def snake(name):
    for old, new in WORDS.items():
        name = name.replace(old, new)
    return re.sub(r"(?<=[a-z0-9])([A-Z])", lambda m: "_" + m.group(1).lower(), name).replace("-", "_")


def sources():
    for crate in sorted(pathlib.Path("crates").iterdir()):
        for path in sorted(crate.rglob("*")):
            if path.suffix in (".rt", ".antt") and "out" not in path.relative_to(crate).parts[:1]:
                yield path


def is_answer(kind):
    return bool(kind) and re.match(r"(goal|needs?|loops?)\.", kind)


def renames(paths):
    names = {}
    for path in paths:
        if path.suffix != ".antt":
            continue
        for line in path.read_text().split("\n"):
            found = DECLARED.match(line)
            if found and not is_answer(found.group(2)):
                names.setdefault(found.group(1), path)
            found = INDENTED.match(line)
            if found:
                names.setdefault(found.group(1), path)
    return {n: TAKEN.get(n, snake(n)) for n in sorted(names) if snake(n) != n} | ALIASES


# The fields of records: what an indented line declares.
def fields(paths):
    antt = [path for path in paths if path.suffix == ".antt"]
    return {m.group(1) for path in antt for line in path.read_text().split("\n") if (m := INDENTED.match(line))}


# Whether the token that begins at this place is a step of the code behind a dot, and not a field or a part of a path.
def is_step(text, at, name, known):
    if not text[:at].endswith(".") or "-" not in name or name in known:
        return False
    return not re.search(r"(?<![\w'-])[A-Z]\w*\.$", text[:at])


def main():
    paths = list(sources())
    new = renames(paths)
    known = fields(paths)
    token = re.compile(rf"(?<![A-Za-z0-9_'₀-₉-])(?:{NAME})(?![A-Za-z0-9_'₀-₉])")
    for path in paths:
        text = path.read_text()
        tokens = set(token.findall(text))
        definition, lemmas = LEMMAS.get(str(path), (None, {}))
        new_here = new | lemmas if definition in tokens else new
        made = [new_here.get(t, t) for t in tokens]
        for name in sorted({n for n in made if made.count(n) > 1}):
            print(f"falls together: {path}: {name}")
        if "--list" in sys.argv:
            continue

        def turn(m):
            name = m.group(0)
            return name if is_step(text, m.start(), name, known) else new_here.get(name, name)

        respelled = token.sub(turn, text)
        if respelled != text:
            path.write_text(respelled)
    print(f"{len(new)} names")


main()
