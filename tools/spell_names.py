#!/usr/bin/env python3
"""Spells the repository's own definitions, lemmas, fields and variables of clauses, specs/ and proofs/ as the library spells its own:
in snake case, and types in camel case.

  tools/spell_names.py            in the repository: rewrites the files below crates/ in place; commit first
  tools/spell_names.py --list     prints each old name with its new one, and which new names stood in the files before

Taken are names with a dash that a file of specs/ or proofs/ declares or binds, the clauses' names and the functions' names of src/.
Left alone are names that are imported from a library, the goals and steps that the prover makes, text in quotes, comments, and
all code outside clauses. A second run changes nothing.
"""
import glob
import os
import re
import sys

ROOT = os.path.dirname(os.path.dirname(os.path.abspath(__file__)))
WORD = r"[A-Za-z_][\w'′]*(?:-[\w'′]+)*"
TOKEN = re.compile(r"(?<![\w'′◌-])(" + WORD + r")(?![\w'′◌-])")
# A comment, a text in quotes, or a run of anything else.
SKIPPED = {".antt": re.compile(r'--[^\n]*|"(?:[^"\\]|\\.)*"'), ".rt": re.compile(r'//[^\n]*|b?"(?:[^"\\]|\\.)*"')}
HEAD = re.compile(r"(?m)^\s*(?:(?:abbrev|unfoldable|pub)\s+)*(?:(?:record|data|inductive)\s+)?(" + WORD + r")\s*(?:\{[^}\n]*\}\s*|\([^)\n]*\)\s*)*:(?!=)")
BOUND = re.compile(r"(?:\blet\s+|\bλ\s*\(?\s*|[({]\s*)((?:" + WORD + r"\s+)*" + WORD + r")\s*(?:[:.=]|\s*=)")
IMPORT = re.compile(r"(?m)^\s*(?:pub\s+)?(?:ghost\s+)?use\s+([\w.'-]+)(?:\.\{([^}]*)\})?(?:\s+as\s+(" + WORD + r"))?\s*;?\s*$")
GOALS = re.compile(r"\.(Goals|Given|Lts[\w.-]*|Code|Reads|Tie|Statement)$")


def files():
    for at in sorted(glob.glob(os.path.join(ROOT, "crates", "**", "*"), recursive=True)):
        if os.path.splitext(at)[1] in SKIPPED and "/out/" not in at:
            yield at


def blank(text, kind):
    """The text with comments and quotes as spaces, of the same length."""
    return SKIPPED[kind].sub(lambda m: re.sub(r"[^\n]", " ", m.group(0)), text)


def ghost(text):
    """Where a .rt file speaks of proofs: clauses, ghost items and imports, attributes of tactics; as spans."""
    plain = blank(text, ".rt")
    spans = []
    for m in re.finditer(r"(?m)^\s*ghost\s[^;{]*?(?:\.\{[^}]*\}\s*(?:as\s+[\w-]+\s*)?;|;)", plain):
        spans.append(m.span())
    for m in re.finditer(r"\b(?:requires|ensures|ghost)\b\*?[^{;]*\{", plain):
        depth, at = 1, m.end()
        while depth and at < len(plain):
            depth += {"{": 1, "}": -1}.get(plain[at], 0)
            at += 1
        spans.append((m.start(), at))
    for m in re.finditer(r"#!?\[tactic\([^\]]*\]", plain):
        spans.append(m.span())
    return spans


# Names in which words are joined by capitals; one of them, in snake case, is a lemma's already.
JOINED = {"timesZ": "times_z", "mulLow": "times_low", "zTimes": "z_times", "firstCheck": "first_check", "correctsAt": "corrects_at", "firstFrom": "first_from"}


def respelled(name):
    """A name with the joined ones in it in snake case."""
    return "_".join(JOINED.get(part, part) for part in name.split("_"))


def new_spelling(name):
    parts = name.replace("′", "'").split("-")
    if parts[0][:1].isupper():
        return "".join(p[:1].upper() + p[1:] for p in parts)
    return "_".join(p for p in parts)


def collect():
    own, foreign, present = set(), set(), {}
    crates = {os.path.basename(os.path.dirname(os.path.dirname(p))) for p in glob.glob(os.path.join(ROOT, "crates", "*", "src"))}
    crates |= {os.path.basename(p) for p in glob.glob(os.path.join(ROOT, "crates", "*"))}
    for at in files():
        kind = os.path.splitext(at)[1]
        with open(at, encoding="utf-8") as f:
            text = blank(f.read(), kind)
        for w in TOKEN.findall(text):
            present.setdefault(w, set()).add(os.path.relpath(at, ROOT))
        goals = set()
        for m in IMPORT.finditer(text):
            path, names, alias = m.group(1), m.group(2), m.group(3)
            home = re.match(r"Rattle\.(\w+)", path)
            ours = bool(home) and home.group(1) in crates
            for each in (names or "").split(","):
                words = each.split()
                if not words:
                    continue
                if len(words) == 3 and words[1] == "as":
                    own.add(words[2])
                if not ours:
                    foreign.add(words[0])
                elif GOALS.search(path):
                    goals.add(words[0])
            if alias:
                own.add(alias)
        if kind == ".rt":
            own |= {m.group(1).replace("_", "-") for m in re.finditer(r"\b(?:fn|requires|ensures)\*?\s+(\w+)", text)}
            continue
        made = set(re.findall(r"(?m)^(?:abbrev\s+)?pub\s+(" + WORD + r")\s*:\s*goal\.", text)) | goals
        own |= {m.group(1) for m in HEAD.finditer(text)} - made
        for m in BOUND.finditer(text):
            own |= set(m.group(1).split()) - made
        # the names of data constructors and of fields in a record's value
        own |= set(re.findall(r"(?:record\s*(?:" + WORD + r"\s*)?\{|;)\s*(" + WORD + r")\s*=", text)) - made
        own |= set(re.findall(r"(?m)^\s+(" + WORD + r")\s*=", text)) - made
        # variables of a clause's left-hand side
        for m in re.finditer(r"(?m)^\s*" + WORD + r"((?:\s+[^=\n]+)?)\s=\s", text):
            own |= {w for w in re.findall(r"(?<![\w.'-])" + WORD + r"(?![\w'-])", m.group(1))} - made
    return own, foreign, present


def table():
    own, foreign, present = collect()
    names = {n: respelled(new_spelling(n)) for n in own if ("-" in n or "′" in n) and n not in foreign}
    names |= {n: respelled(n) for n in present if "-" not in n and respelled(n) != n}
    return {n: w for n, w in names.items() if n in present and n != w}, present


def turn(text, names):
    return TOKEN.sub(lambda m: names.get(m.group(1), m.group(1)), text)


def rewrite(text, kind, names):
    if kind == ".antt":
        out, at = [], 0
        for m in SKIPPED[kind].finditer(text):
            out += [turn(text[at : m.start()], names), m.group(0)]
            at = m.end()
        return "".join(out) + turn(text[at:], names)
    spans = ghost(text)
    skipped = [m.span() for m in SKIPPED[kind].finditer(text)]
    inside = lambda at: any(a <= at < b for a, b in spans) and not any(a <= at < b for a, b in skipped)
    return TOKEN.sub(lambda m: names.get(m.group(1), m.group(1)) if inside(m.start()) else m.group(1), text)


def main(argv):
    names, present = table()
    if argv == ["--list"]:
        for old, new in sorted(names.items()):
            print(f"{old} -> {new}" + (f"   (stood in {', '.join(sorted(present[new])[:3])})" if new in present else ""))
        return 0
    if argv:
        print(__doc__)
        return 2
    for at in files():
        with open(at, encoding="utf-8") as f:
            text = f.read()
        new = rewrite(text, os.path.splitext(at)[1], names)
        if new != text:
            with open(at, "w", encoding="utf-8") as f:
                f.write(new)
    return 0


if __name__ == "__main__":
    raise SystemExit(main(sys.argv[1:]))
