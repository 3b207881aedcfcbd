#!/usr/bin/env python3
"""Plants bugs in the code, one at a time, and tells whether the contracts refuse them.

  tools/plant.py                      every bug of tools/planted_bugs.txt
  tools/plant.py NAME..               these bugs
  tools/plant.py --crate CRATE        the bugs of one crate
  tools/plant.py --list               the bugs, nothing is run
  tools/plant.py --report FILE        a table and totals in Markdown as well
  tools/plant.py --scratch DIR        where the copy stands (a new temporary folder if not given);
                                      a second run over the same folder takes over what it proved
  tools/plant.py --bugs FILE          another list

Each bug is put into a copy of the repository, never into the repository itself, and `rt check` is run there in the crate's folder, and `rt ci` where that proves it:

  refused     the crate is not proved any more. 'fact': a need or a step of a proof does not hold.
              'name': a proof file names a step that the bug did away with, or answers where nothing is asked
              any more, which shows little
  malformed   the compiler refused it before anything was to be proved: rewrite it
  run         the crate is still proved, and its run wrote something else than its stored output
  above       the crate is still proved, and a crate above it is not, or a test or a stored output is not met
  UNNOTICED   everything is proved, and every test and stored output is met

The list has a block for each bug, blocks parted by an empty line, '#' starting a comment line:

  name: product_of_one_zero
  crate: field
  file: src/arithmetic.rt
  class: connective
  old: if a == 0 || b == 0 {
  new: if a == 0 && b == 0 {

`old` has to stand exactly once in the file. A line that starts with '|' goes on with the text of the line before it, after a line
break. `free: WHY` marks a change that the rules leave open: it is tried and shown, and does not count.

The status is 0 if every bug that counts was refused by a proof, a test or a stored output.
"""
import argparse
import os
import re
import shutil
import subprocess
import sys
import tempfile
import time

ROOT = os.path.dirname(os.path.dirname(os.path.abspath(__file__)))
KEYS = ("name", "crate", "file", "class", "old", "new", "free")
# How the complaint reads about a step that is gone, and about an answer where the contract asks for nothing any more.
MISSING = re.compile(r"that can be named from here|has no field|is not in scope|is not a field of|the two types are\s+`(?:Prim\.)?Unit \{0\}`\s+\(expected\)")


class Bad(Exception):
    pass


def read_bugs(path):
    bugs, block, last = [], {}, None

    def close(at):
        if not block:
            return
        for key in KEYS[:6]:
            if key not in block:
                raise Bad(f"{path}:{at}: the bug {block.get('name', '?')} has no '{key}:' line")
        if any(b["name"] == block["name"] for b in bugs):
            raise Bad(f"{path}:{at}: two bugs are named {block['name']}")
        bugs.append(dict(block))
        block.clear()

    with open(path, encoding="utf-8") as source:
        lines = source.read().split("\n")
    for at, line in enumerate(lines, 1):
        if line.startswith("#"):
            continue
        if not line.strip():
            close(at)
            last = None
        elif line.startswith("|"):
            if last not in ("old", "new"):
                raise Bad(f"{path}:{at}: only 'old:' and 'new:' go on")
            block[last] += "\n" + line[1:]
        else:
            key, colon, value = line.partition(":")
            if not colon or key not in KEYS:
                raise Bad(f"{path}:{at}: expected one of {', '.join(KEYS)}, then ':'")
            block[key] = value[1:] if value.startswith(" ") else value
            last = key
    close(len(lines))
    return bugs


def planted(text, bug):
    count = text.count(bug["old"])
    if count != 1:
        raise Bad(f"{bug['name']}: the old text stands {count} times in {bug['crate']}/{bug['file']}, not once")
    return text.replace(bug["old"], bug["new"])


def source_of(root, bug):
    path = os.path.join(root, "crates", bug["crate"], bug["file"])
    if not os.path.isfile(path):
        raise Bad(f"{bug['name']}: there is no crates/{bug['crate']}/{bug['file']}")
    return path


class Copy:
    """A copy of the repository to plant bugs in, without the edits that must fail, and what the prover said of each bug. What a check keeps
    of a crate is its folder out/, of which the copy before any bug is held aside."""

    def __init__(self, scratch):
        self.tree = os.path.join(scratch, "tree")
        self.clean = os.path.join(scratch, "out")
        self.said = os.path.join(scratch, "said")
        for folder in (self.tree, self.clean, self.said):
            os.makedirs(folder, exist_ok=True)
        for name in os.listdir(self.tree):
            remove(os.path.join(self.tree, name))
        copy(os.path.join(ROOT, "crates.txt"), os.path.join(self.tree, "crates.txt"))
        for crate in os.listdir(os.path.join(ROOT, "crates")):
            copy(os.path.join(ROOT, "crates", crate), os.path.join(self.tree, "crates", crate))
            remove(os.path.join(self.tree, "crates", crate, "must-fail"))
            if os.path.isdir(os.path.join(self.clean, crate)):
                self.restore(crate)

    def run(self, where, *words):
        began = time.time()
        done = subprocess.run(["nice", "-n", "5", "rt", *words], cwd=where, stdout=subprocess.PIPE, stderr=subprocess.STDOUT, check=False)
        return done.returncode, done.stdout.decode("utf-8", "replace"), time.time() - began

    # Proves one crate.
    def check(self, crate):
        return self.run(os.path.join(self.tree, "crates", crate), "check")

    # Proves what the bug reaches in all crates, and runs every test and program.
    def check_all(self):
        return self.run(self.tree, "ci")

    # Keeps what a crate's check left, or puts it back.
    def keep(self, crate):
        move(os.path.join(self.tree, "crates", crate, "out"), os.path.join(self.clean, crate))

    def restore(self, crate):
        move(os.path.join(self.clean, crate), os.path.join(self.tree, "crates", crate, "out"))


def remove(path):
    if os.path.isdir(path) and not os.path.islink(path):
        shutil.rmtree(path)
    elif os.path.lexists(path):
        os.remove(path)


def copy(path, to):
    os.makedirs(os.path.dirname(to), exist_ok=True)
    subprocess.run(["cp", "-a", path, to], check=True)


def move(path, to):
    remove(to)
    if os.path.lexists(path):
        copy(path, to)


def shortened(line, tree):
    line = line.replace(tree + "/crates/", "").strip()
    return line if len(line) <= 230 else line[:230] + ".."


# The functions that are not proved, what is said first, and whether that is about a fact or a name.
def first_need(text, tree):
    functions = re.findall(r"^fn (\S+): not proved", text, re.M)
    if not functions:
        # a function without a proof file is told by the file that it would take
        functions = re.findall(r"^fn (\S+): no proof", text, re.M)
    # a message goes on in the lines that start with a blank
    errors = [m.replace("\n ", "") for m in re.findall(r"^\S+:\d+:\d+: error.*(?:\n .*)*", text, re.M)]
    needs = [l for l in text.split("\n") if re.match(r"note: \S+:\d+:\d+: it is not", l)]
    functions = list(dict.fromkeys(functions))
    said = (errors + needs + [l for l in text.split("\n") if "error" in l] + [""])[0]
    kind = "name" if errors and MISSING.search(errors[0]) else "fact"
    what = shortened(said, tree)
    if kind == "name" and needs:
        what += " // " + shortened(needs[0], tree)
    values = re.search(r"fails, for all that is known there, where (.*?)(?:: help|$)", text, re.M)
    if values:
        what += "; it fails where " + shortened(values[1], tree)
    return functions, kind, what


def judge(code, text, tree):
    if code == 0:
        return "proved", [], "", ""
    if re.search(r"^logic=not-proved", text, re.M):
        functions, kind, what = first_need(text, tree)
        return "refused", functions, kind, what
    lines = [l for l in text.split("\n") if "error" in l or "NOT PROVED" in l] or [text[-200:]]
    return "malformed", [], "", shortened(lines[0], tree)


# What notices a bug that its own crate is still proved with: crates that are not proved, tests, and runs.
def above(text, tree):
    failed = re.findall(r"^rt: FAILED: (.*)$", text, re.M)
    return failed[0] if failed else shortened(text[-200:], tree)


def run_bug(place, bug):
    path = source_of(place.tree, bug)
    with open(path, encoding="utf-8") as source:
        text = source.read()
    verdict = "UNNOTICED"
    try:
        with open(path, "w", encoding="utf-8") as source:
            source.write(planted(text, bug))
        code, said, took = place.check(bug["crate"])
        verdict, functions, kind, what = judge(code, said, place.tree)
        if verdict == "proved":
            code, said, more = place.check_all()
            took += more
        with open(os.path.join(place.said, bug["name"]), "w", encoding="utf-8") as out:
            out.write(said)
        if verdict == "proved":
            if code == 0:
                verdict, what = "UNNOTICED", "everything is proved, every test and stored output met"
            else:
                what = above(said, place.tree)
                verdict = "run" if what in (f"{bug['crate']} (run)", f"{bug['crate']} (tests)") else "above"
    finally:
        with open(path, "w", encoding="utf-8") as source:
            source.write(text)
        place.restore(bug["crate"])
    return dict(bug, verdict=verdict, functions=functions, kind=kind, what=what, took=took)


COLUMNS = ("planted", "fact", "name", "run", "above", "UNNOTICED", "malformed", "free")


def column(done):
    if "free" in done:
        return "free"
    return done["kind"] if done["verdict"] == "refused" else done["verdict"]


def totals(all_done, key):
    rows = {}
    for done in all_done:
        for group in (done[key], "all"):
            row = rows.setdefault(group, dict.fromkeys(COLUMNS, 0))
            row[column(done)] += 1
            if column(done) not in ("free", "malformed"):
                row["planted"] += 1
    rows["all"] = rows.pop("all")
    return rows


def report(path, all_done):
    def cell(text):
        return text.replace("|", "\\|").replace("\n", " ")

    with open(path, "w", encoding="utf-8") as out:
        out.write("# Planted bugs\n\n")
        out.write("| Bug | Crate | Class | Verdict | Not proved | First said | s |\n|---|---|---|---|---|---|---|\n")
        for done in all_done:
            verdict = f"{done['verdict']} ({done['kind']})" if done["kind"] else done["verdict"]
            if "free" in done:
                verdict += f"; free: {done['free']}"
            functions = ", ".join(f"`{f}`" for f in done["functions"][:3]) + (" .." if len(done["functions"]) > 3 else "")
            out.write(
                f"| {done['name']} | `{done['crate']}` | {done['class']} | {cell(verdict)} | {functions} | {cell(done['what'])} | {done['took']:.0f} |\n"
            )
        for key in ("crate", "class"):
            out.write(f"\n| {key.capitalize()} | " + " | ".join(COLUMNS) + " |\n" + "|---" * (len(COLUMNS) + 1) + "|\n")
            for group, row in totals(all_done, key).items():
                out.write(f"| {group} | " + " | ".join(str(row[c]) for c in COLUMNS) + " |\n")


def main():
    parser = argparse.ArgumentParser(description="Plants bugs in a copy of the repository and tells whether the contracts refuse them.")
    parser.add_argument("names", nargs="*", metavar="NAME")
    parser.add_argument("--bugs", default=os.path.join(ROOT, "tools", "planted_bugs.txt"))
    parser.add_argument("--crate")
    parser.add_argument("--list", action="store_true")
    parser.add_argument("--scratch")
    parser.add_argument("--report")
    options = parser.parse_args()

    bugs = read_bugs(options.bugs)
    unknown = [n for n in options.names if n not in [b["name"] for b in bugs]]
    if unknown:
        raise Bad(f"no bug is named {', '.join(unknown)}")
    bugs = [b for b in bugs if not options.names or b["name"] in options.names]
    bugs = [b for b in bugs if not options.crate or b["crate"] == options.crate]
    # every old text stands once before anything is run
    for bug in bugs:
        with open(source_of(ROOT, bug), encoding="utf-8") as source:
            planted(source.read(), bug)
    if options.list:
        for bug in bugs:
            print(f"{bug['crate']:10} {bug['class']:18} {bug['name']}{'  (free)' if 'free' in bug else ''}")
        print(f"{len(bugs)} bugs")
        return 0

    scratch = os.path.abspath(options.scratch) if options.scratch else tempfile.mkdtemp(prefix="plant.")
    inside = os.path.relpath(scratch, ROOT)
    if inside == "." or not inside.startswith(".."):
        raise Bad("the scratch folder lies in the repository")
    place = Copy(scratch)
    all_done, ready = [], set()
    began = time.time()
    for bug in bugs:
        if bug["crate"] not in ready:
            code, said, took = place.check(bug["crate"])
            if code != 0:
                raise Bad(f"{bug['crate']} is not proved before any bug is planted:\n{said[-2000:]}")
            place.keep(bug["crate"])
            ready.add(bug["crate"])
            print(f"{bug['crate']}: proved as it stands ({took:.0f} s)", flush=True)
        done = run_bug(place, bug)
        all_done.append(done)
        kind = f" ({done['kind']})" if done["kind"] else ""
        free = " [free]" if "free" in done else ""
        function = f" {done['functions'][0]}:" if done["functions"] else ""
        print(f"{done['verdict']}{kind}{free} {done['crate']}/{done['name']} {done['took']:.0f} s:{function} {done['what']}", flush=True)
        if options.report:
            report(options.report, all_done)
    for key in ("crate", "class"):
        print(f"\n{key:18}" + "".join(f"{c:>11}" for c in COLUMNS))
        for group, row in totals(all_done, key).items():
            print(f"{group:18}" + "".join(f"{row[c]:>11}" for c in COLUMNS))
    print(f"\n{time.time() - began:.0f} s; the copy stands in {scratch}")
    counted = [d for d in all_done if "free" not in d]
    return 0 if all(d["verdict"] in ("refused", "run", "above") for d in counted) else 1


if __name__ == "__main__":
    try:
        sys.exit(main())
    except Bad as problem:
        print(f"plant.py: {problem}", file=sys.stderr)
        sys.exit(2)
