#!/usr/bin/env python3
"""Brings the definitions and lemmas of this repository to snake case, as today's Rattle spells them.

usage: python3 tools/respell.py [--check]      at the top of the repository, once, after the kit's port.py

A name is turned if a file of specs/ or proofs/ declares it: `sameBytes` and `same-bytes` become `same_bytes`. Names of functions, fields and
variants in src/, strings, comments in code, goals that Rattle names, and names that a file takes from Rattle's own library stay.
--check writes nothing and prints the names that would fall together. KEPT_APART has the names that fell together, and what they are called.
"""

import glob
import re
import sys

NAME = re.compile(r"[^\s(){}\[\].;,\"«»\\`]+")
DECLARED = re.compile(r"^ *(?:(?:abbrev|unfoldable|pub) +)*([^\s(){}.;,\"«»\[\]]+) :(?=\s)(.*)$", re.M)
LOCAL = re.compile(r"^ *let ([^\s(){}.;,\"«»\[\]]+) :(?=\s)", re.M)
# A lemma that would have the name of a definition or a function; fields of three cases that would have a definition's name.
LEMMAS = """as-pending base-after chain-feasible chain-keeps-off chain-most charge-by charges-by fields-bytes form-right grown-row holder-at
kept-after lies-inside live-found lower-pair marks-bytes metres-by next-serial on-cycle own-shown pair-count records-bytes records-of
request-at served-count served-number still-free store-answer two-thirds""".split()
KEPT_APART = {
    **{name: name.replace("-", "_") + "_lem" for name in LEMMAS},
    "colour-held": "colour_is_held",
    "never-given": "was_never_given",
    "refusal-line": "line_of_refusal",
}
# Lemmas of one file that the kit's script had turned to what is now a definition's name.
IN_FILE = {
    "crates/book/proofs/EveryHistory.antt": {"held_by": "held_by_lem"},
    "crates/book/proofs/LiveOrders.antt": {"live_state": "live_state_lem"},
    "crates/book/proofs/States.antt": {"live_state": "live_state_lem"},
    "crates/book/proofs/Marks.antt": {"live_state": "live_state_lem"},
    "crates/book/proofs/Outcomes.antt": {"live_state": "live_state_lem"},
    "crates/matching/proofs/WalkLaws.antt": {"goes_on": "goes_on_lem"},
    "crates/planner/proofs/WriteLaws.antt": {"other_way": "other_way_lem"},
}


def read(path):
    with open(path, encoding="utf-8") as f:
        return f.read()


def snake(name):
    return re.sub(r"(?<=[a-z0-9])([A-Z])", r"_\1", name).replace("-", "_").lower()


def turns(name):
    return re.match(r"[a-z]", name) and not name.startswith("--") and re.search(r"[A-Z]|[a-z0-9'?]-[a-z0-9]", name)


def generated(kind):
    return kind.strip().startswith(("tie.", "goal.")) or "statement M" in kind


def theory():
    return sorted(glob.glob("crates/*/specs/**/*.antt", recursive=True) + glob.glob("crates/*/proofs/**/*.antt", recursive=True))


def declared_names(paths):
    names = {}
    for path in paths:
        for name, kind in DECLARED.findall(read(path)):
            if turns(name) and not generated(kind):
                names.setdefault(name, KEPT_APART.get(name, snake(name)))
    return names


def made_here(text):
    return {name for name, kind in DECLARED.findall(text) if generated(kind)}


def of_library(text):
    found = set()
    for line in re.findall(r"^(?:ghost )?(?:pub )?use (?!Rattle\.(?!std\b))\S+\.\{([^}]*)\}", text, re.M):
        found.update(it.split()[0] for it in line.split(",") if it.strip())
    return found


def turn(text, names):
    """Turns each name; behind a dot in the proof of a function a name of KEPT_APART is the step of a call."""

    def one(m):
        if names.get("") and m[0] in KEPT_APART and text[m.start() - 1 : m.start()] == ".":
            return snake(m[0])
        return names.get(m[0], m[0])

    return NAME.sub(one, text)


def turn_theory(text, names):
    lines = []
    for line in text.split("\n"):
        code, dashes, comment = line.partition("-- ") if re.match(r"\s*-- ", line) else (line, "", "")
        lines.append(turn(code, names) + dashes + quoted(comment, names))
    return "\n".join(lines)


def quoted(text, names):
    return re.sub(r"`[^`\n]*`", lambda m: turn(m[0], names), text)


def turn_code(text, names):
    lines = []
    for line in text.split("\n"):
        if re.match(r"\s*//", line):
            lines.append(quoted(line, names))
        else:
            pieces = re.split(r"(b?\"(?:[^\"\\]|\\.)*\")", line)
            lines.append("".join(it if i % 2 else turn(it, names) for i, it in enumerate(pieces)))
    return "\n".join(lines)


def here(text, names):
    skip = made_here(text) | of_library(text)
    return {old: new for old, new in names.items() if old not in skip}


def fall_together(path, before, after):
    """The names of one file that are two before and one after."""
    one = {}
    for a, b in zip(NAME.findall(before), NAME.findall(after)):
        one.setdefault(b, set()).add(a)
    for new, olds in sorted(one.items()):
        if len(olds) > 1:
            print(f"{path}: {', '.join(sorted(olds))} -> {new}")


def main():
    check = "--check" in sys.argv[1:]
    paths = theory()
    names = declared_names(paths)
    camel = {old: new for old, new in names.items() if "-" not in old}
    work = [(p, turn_theory, names) for p in paths]
    work += [(p, turn_code, camel) for p in sorted(glob.glob("crates/*/src/**/*.rt", recursive=True))]
    work += [(p, turn_code, camel) for p in sorted(glob.glob("crates/*/must-fail/*.edit"))]
    work += [(p, quoted, names) for p in ["README.md", *sorted(glob.glob("docs/*.md"))]]
    for path, how, all_names in work:
        before = read(path)
        if path.endswith((".antt", ".rt")):
            all_names = {**here(before, all_names), **IN_FILE.get(path, {}), "": path.endswith("/Proof.antt")}
        after = how(before, all_names)
        if check:
            if path.endswith((".antt", ".rt")):
                fall_together(path, before, after)
        elif after != before:
            with open(path, "w", encoding="utf-8") as f:
                f.write(after)
    by_new = {}
    for path in paths:
        for name, kind in DECLARED.findall(read(path)):
            if not generated(kind):
                by_new.setdefault(names.get(name, name), {}).setdefault(name, set()).add(path)
    for new, olds in sorted(by_new.items()):
        if check and len(olds) > 1:
            print("one name:", new, {o: sorted(ps)[:3] for o, ps in olds.items()})


main()
