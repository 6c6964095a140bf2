#!/usr/bin/env python3
"""Turns the proofs of functions from the older form, Proof.antt over a Tie, to Invariants.antt and Answers.antt.

usage: python3 tools/answers.py NAMES CRATE      NAMES: the names.json that `rt check --generated DIR --old-names` writes in the crate

An answer that only says `search rules` goes, since the check finds it. What the script cannot tell is printed. A proof that walks the code by
hand stays as it is.
"""

import glob
import json
import os
import re
import sys

WORD = r"[^\s(){}\[\].;,\"«»\\`]+"
TOKEN = re.compile(WORD)
plain = lambda name: name.replace("_", "-")


def read(path):
    with open(path, encoding="utf-8") as f:
        return f.read()


def pieces(text):
    """The comment at the head, the use lines, and the declarations as (name, kind, text)."""
    head, uses, rest = [], [], []
    lines = text.split("\n")
    i = 0
    while i < len(lines) and (lines[i].startswith("-- ") or lines[i].startswith("use ") or not lines[i].strip()):
        if lines[i].startswith("-- "):
            head.append(lines[i])
        elif lines[i].strip():
            uses.append(lines[i])
        i += 1
    blocks = re.split(r"\n(?=\S)", "\n".join(lines[i:]))
    decls, comment = [], []
    for block in blocks:
        block = block.rstrip()
        if not block:
            continue
        if block.startswith("-- "):
            comment.append(block)
            continue
        if block.startswith("use "):
            uses.append(block)
            continue
        m = re.match(rf"((?:abbrev |pub |unfoldable )*)({WORD}) :\s+(.*)", block, re.S)
        if m:
            decls.append([m[2], m[1], m[3], [block], comment])
            comment = []
        else:
            decls[-1][3].append(block)
            comment = []
    return head, uses, decls


class Function:
    def __init__(self, entry):
        self.e = entry
        self.places = {p[0]: (k, p) for k, p in enumerate(entry["places"])}
        self.new_place = {plain(p[0]): (p[0], new) for p, new in zip(entry["places"], entry["places_by_name"])}
        self.loops = entry["loops"]
        self.goals = {}
        for k, (old, new) in enumerate(entry["needs"]):
            self.goals[self.key(old)] = (new, entry["asked_at"][k][0] if k < len(entry["asked_at"]) else None)

    @staticmethod
    def key(name):
        return plain(re.sub(r"^(Need-)?overflow[-_](add|sub|mul|shl|shr|cast|step|neg)\b", r"\2", re.sub(r"^Need-", "", name)))

    def path(self, place):
        out = []
        while place:
            k, p = self.places[place]
            out.append((k, p))
            place = p[1]
        return out

    def cite(self, place, step, fields):
        """The new path of an old one behind c, or None."""
        best = None
        for k, p in self.path(place):
            arm = self.e["arms"][k]
            for new, old, under in arm[2] if arm else []:
                if plain(old) == plain(step) and [plain(u) for u in under] == [plain(f) for f in fields[: len(under)]]:
                    if best is None or len(under) > best[0]:
                        best = (len(under), f"{arm[0]}.{new}", fields[len(under) :])
        if best and best[0]:
            return ".".join([best[1], *best[2]])
        for k, p in self.path(place):
            old, new = p[2]
            if old and plain(old) == plain(step):
                renamed = dict((plain(a), b) for a, b in p[4])
                fields = [renamed.get(plain(fields[0]), fields[0]), *fields[1:]] if fields else fields
                if fields and fields[0] == "branch":
                    fields[0] = "either"
                if p[3] and fields and fields[0] in ("new", "auto"):
                    fields = self.lent(p[3], fields)
                return ".".join([new, *fields])
        return None

    def lent(self, callee, fields):
        params, k = self.e["params"].get(callee, []), 1
        while k < len(fields) and fields[k] == "1":
            k += 1
        if k < len(fields) and fields[k] == "0" and k - 1 < len(params):
            return [fields[0], params[k - 1], *fields[k + 1 :]]
        return fields


OWN = {"args", "requires", "pre", "ranges", "type_inv", "well-formed", "well_formed"}


def source_names(crate):
    """Names of parameters, locals and fields in src/, by their spelling with dashes."""
    names = set()
    for path in glob.glob(f"crates/*/src/**/*.rt", recursive=True):
        names.update(re.findall(r"\b[a-z]\w*_\w*\b", read(path)))
    return {plain(it): it for it in names}


def written_out(text):
    """A `let` that names a step of which a lent value is cited is put in its place."""
    for m in list(re.finditer(rf"\n? *let ({WORD}) = (c(?:\.before)*\.{WORD}(?:\.given\.0)?) in(?=\s)", text)):
        name = re.escape(m[1])
        if (m[2].endswith(".given.0") or re.search(rf"(?<![^\s(\[,]){name}\.(new|auto)\b", text)) and not re.search(rf"(?<![^\s(\[,]){name}(?![^\s(){{}}\[\],;])", text.replace(m[0], "")):
            text = re.sub(rf"(?<![^\s(\[,]){name}\.", m[2].replace("\\", "") + ".", text.replace(m[0], "", 1))
    return text


def turn_body(f, place, text, said, where, sources):
    aliases = {"c"}
    text = written_out(text)
    while True:
        m = re.search(rf"let ({WORD}) = ({'|'.join(map(re.escape, sorted(aliases)))})((?:\.before)*) in( \(|\s+)", text)
        if not m:
            break
        aliases.add(m[1])
        text = text[: m.start()] + ("(" if m[4] == " (" else "") + text[m.end() :]
    head = "|".join(map(re.escape, sorted(aliases, key=len, reverse=True)))

    def one(m):
        parts = [p if k == 0 else sources.get(p, p) for k, p in enumerate(m[0].split("."))][1:]
        while parts and parts[0] == "before":
            parts.pop(0)
        if not parts:
            return "c"
        if parts[0] == "pre":
            parts[0] = "requires"
        if plain(parts[0]) in ("args", "requires", "ranges"):
            return ".".join(["c", *parts])
        new = f.cite(place, parts[0], parts[1:])
        if new is None:
            said.append(f"{where}: no step {'.'.join(parts)}")
            return ".".join(["c", *parts])
        return "c." + new

    text = re.sub(rf"(?<=\.){WORD}", lambda m: sources.get(m[0], m[0]), text)
    return re.sub(rf"(?<![^\s(\[,{{])(?:{head})(?:\.{WORD})*(?![^\s(){{}}\[\].;,])", one, text)


def used(uses, text, skip):
    words = set(TOKEN.findall(text))
    operators = set(re.findall(r"[^\w\s(){}\[\].;,\"]+", text))
    out = []
    for line in uses:
        if any(s in line for s in skip):
            continue
        m = re.match(r"(use \S+\.)\{(.*)\}$", line)
        if not m:
            name = re.split(r" as |\.", line)[-1]
            if re.search(rf"(?<![^\s(\[,{{]){re.escape(name)}\.", text):
                out.append(line)
            continue
        names = []
        for it in m[2].split(", "):
            bare = it.split(" as ")[-1]
            if bare in words or (bare == "[]" and "[]" in text) or ("◌" in bare and bare.strip("◌") in (words | operators)) or "◌" in bare and bare.strip("◌") in text:
                names.append(it)
        if names:
            out.append(m[1] + "{" + ", ".join(names) + "}")
    return out


def cites(text, name):
    return re.search(rf"(?<![^\s(\[,]){re.escape(name)} c(?![^\s(){{}}\[\],;])", text)


def with_helpers(answers, helpers):
    """A lemma about the facts at a place stays where all that cite it stand at that place; else each that cites it says it by `let`."""
    at = {}
    for a in answers:
        if a[0] == "answer":
            at.setdefault(a[1], []).append(a[5])
    stays = set(helpers)
    while True:
        out = set()
        for name in stays:
            old = helpers[name][0]
            texts = [(p, t) for p, ts in at.items() for t in ts] + [(helpers[h][0], helpers[h][4] + helpers[h][2]) for h in helpers]
            inlined = [h for h in helpers if h not in stays]
            if old not in at or any(cites(t, name) and p != old for p, t in texts) or any(cites(helpers[h][4], name) for h in inlined):
                out.add(name)
        if not out:
            break
        stays -= out

    def bare(text):
        for h in helpers:
            if h not in stays:
                text = re.sub(rf"\({re.escape(h)} c\)(\.\d+)", rf"{h}\1", text)
                text = re.sub(rf"\({re.escape(h)} c\)", h, text)
                text = re.sub(rf"(?<![^\s(\[,]){re.escape(h)} c(?![^\s(){{}}\[\],;])", h, text)
        return text

    def lets(text):
        need, more = [], [text]
        while more:
            t = more.pop()
            for h in helpers:
                if h not in stays and h not in need and cites(t, h):
                    need.append(h)
                    more.append(helpers[h][4] + " " + helpers[h][2])
        out = ""
        for h in helpers:
            if h in need:
                old, new, kind, args, body, marks, unf, lines = helpers[h]
                body = f"λ {' '.join(args)}. {body}" if args else body
                out += f"\n    let {h} : {bare(kind)} =\n      {bare(body)} in"
        return out, "".join(helpers[h][6] for h in helpers if h in need)

    out = []
    for a in answers:
        if a[0] == "text":
            out.append(a[1])
        elif a[0] == "helper":
            if a[1] in stays:
                old, new, kind, args, body, marks, unf, lines = helpers[a[1]]
                head = f"{lines}{marks}{a[1]} : (c : goal.{new}) → {kind}{unf}\n"
                out.append(f"{head}{' '.join([a[1], 'c', *args])} =\n    {body}")
        else:
            _, place, new, lines, unf, rest = a
            said, opened = lets(rest)
            if said:
                unf += "".join(line for line in ["\n" + it for it in opened.split("\n") if it] if line not in unf)
                rest = said + "\n    " + bare(rest).strip()
            out.append(f"{lines}pub {new} : goal.{new}{unf}\n{new} c ={rest}")
    return out


def convert(path, crate, names, said, sources):
    text = read(path)
    folder = os.path.dirname(path)
    inside = os.path.relpath(folder, f"crates/{crate}/proofs").replace("/", ".")
    entry = names.get(f"Rattle-{crate}-proofs.{inside}.Lts")
    if "tie.close" not in text or entry is None:
        said.append(f"{path}: left as it is")
        return
    f = Function(entry)
    head, uses, decls = pieces(text)
    invariants, answers, helpers = [], [], {}
    for name, marks, kind, blocks, comment in decls:
        where = f"{path}: {name}"
        if "statement M" in kind:
            continue
        m = re.match(r"tie\.(invariant|decreases)-(\S+)", kind)
        if m:
            loop = next((k for k, l in enumerate(f.loops) if plain(l[0][0]) == plain(m[2])), None)
            if loop is None:
                said.append(f"{where}: no loop")
                continue
            (_, new), variables = f.loops[loop]
            changed = f.e["changed"][loop]
            given = [("initial." if c else "") + v for v, c in zip(variables, changed)] + [v for v, c in zip(variables, changed) if c]
            body = "\n".join(blocks[1:])
            first, eq, rest = body.partition("=")
            args = first.split()[1:]
            rest0 = rest
            if len(args) != len(given):
                said.append(f"{where}: {len(args)} arguments, not {given}")
            turned = dict(zip(args, given))
            rest = TOKEN.sub(
                lambda t: f"l.{turned[t[0]]}" if t[0] in turned and rest0[t.start() - 1 : t.start()] != "." else t[0], rest
            )
            for a in args:
                if re.search(rf"(λ|let) [^.=]*(?<!\S){re.escape(a)}(?!\S)[^.=]*[.=]", rest0) or re.search(rf"\(({re.escape(a)}|[^():]* {re.escape(a)}( [^():]*)?) :", rest0):
                    said.append(f"{where}: {a} is bound again")
            label = f"{m[1]}-{new}"
            extra = [b for b in blocks[0].split("\n")[1:]]
            unf = "".join("\n" + b for b in extra if b.startswith("unfolding"))
            lines = "\n".join(comment) + "\n" if comment else ""
            invariants.append(f"{lines}abbrev pub {label} : goal.{label}{unf}\n{label} l ={rest}")
            continue
        m = re.match(r"tie\.Need-(\S+)", kind)
        if m:
            goal = f.goals.get(f.key(m[1]))
            body = "\n".join(blocks[1:])
            rest = body
            unf = ""
            while rest.startswith("unfolding"):
                line, _, rest = rest.partition("\n")
                unf += "\n" + line
            first, eq, rest = rest.partition("=")
            if re.fullmatch(r"\s*search rules\s*", rest):
                continue
            if goal is None:
                if f.key(m[1]) not in {plain(s) for s in f.e["settled"]} and rest.strip() not in ("omega arith", "refl"):
                    said.append(f"{where}: no goal {m[1]}:{rest}")
                continue
            new, place = goal
            rest = turn_body(f, place, rest, said, where, sources)
            lines = "\n".join(comment) + "\n" if comment else ""
            answers.append(("answer", place, new, lines, unf, rest))
            continue
        lines = "\n".join(comment) + "\n" if comment else ""
        text = "\n".join(blocks)
        about = re.match(rf"\(?(?:c : )?tie\.({WORD})((?: invariant-{WORD}| decreases-{WORD})*)\)?\s*→\s*(.*)", kind, re.S)
        if about and plain(about[1]) in f.new_place:
            old, new = f.new_place[plain(about[1])]
            rest = "\n".join(blocks[1:])
            unf = ""
            while rest.startswith("unfolding"):
                line, _, rest = rest.partition("\n")
                unf += "\n" + line
            first, eq, rest = rest.partition("=")
            helpers[name] = (
                old,
                new,
                turn_body(f, old, about[3], said, where, sources).strip(),
                first.split()[2:],
                turn_body(f, old, rest, said, where, sources).strip(),
                marks,
                unf,
                lines,
            )
            answers.append(("helper", name))
            continue
        if "tie." in text:
            said.append(f"{where}: speaks of tie")
        answers.append(("text", lines + text))
    answers = with_helpers(answers, helpers)
    module = f"Rattle.{crate}.proofs.{inside}"
    skip = [f"{module}.Statement", f"{module}.Tie"]
    os.remove(path)
    for file, parts, given in (("Invariants", invariants, "Given"), ("Answers", answers, "Goals")):
        if not parts:
            continue
        text = "\n\n".join(parts)
        lines = used(uses, text, skip)
        lines.append(f"use {module}.{given} as goal")
        comment = head if (file == "Invariants" or not invariants) else []
        with open(f"{folder}/{file}.antt", "w", encoding="utf-8") as out:
            out.write("\n".join(comment + lines) + "\n\n" + text + "\n")


def main():
    names, crate = json.loads(read(sys.argv[1])), sys.argv[2]
    said, sources = [], source_names(crate)
    only = sys.argv[3:]
    for path in sorted(glob.glob(f"crates/{crate}/proofs/**/Proof.antt", recursive=True)):
        if only and not any(o in path for o in only):
            continue
        convert(path, crate, names, said, sources)
    print("\n".join(said))


main()
