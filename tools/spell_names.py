#!/usr/bin/env python3
"""Spells the repository's own definitions, lemmas and fields in snake case, after port.py: chargeSum as charge_sum, turn-guarantee as turn_guarantee.

usage: spell_names.py [TOP]

Which names: those that a file of specs/ or proofs/ declares, but for the steps, goals and fields that Rattle makes (in proofs of functions
they stay) and names of the libraries (a name that a file imports from a library stays in that file). Types and modules, names of src/,
strings, inputs and outputs stay. It turns specs/, proofs/, clauses of src/, edits, and code spans of the papers. FALLEN has the names that
would have fallen together with another one in a file, or with a constructor. Run once; what it turned is printed, one name a line.
"""
import os
import re
import sys

TOP = os.path.abspath(sys.argv[1] if len(sys.argv) > 1 else ".")
NAME = r'[^\s(){}.;,@"«»:]+'
WORD = re.compile(r'[^\s(){}.;,@"«»:`]+')
DECLARED = re.compile(r"^( *)((?:pub |abbrev |unfoldable |pattern |open )*)«?(" + NAME + r")»?(?: \{[^{}]*\})? :(?: |$)")
SEVERAL = re.compile(r"^ +(?:pub )?((?:" + NAME + r" )+" + NAME + r") :(?: |$)")
# Two names of one spelling: a lemma that would have its definition's name ends in _lem; a definition that would have the name of the
# call that it is for is named by what it gives.
FALLEN = {
    "at-id": "at_id_lem", "arena-fits": "arena_fits_lem", "region-fits": "region_fits_lem", "wake-waiter": "wake_waiter_lem",
    "pick-bytes": "pick_bytes_lem", "init-number": "init_number_lem", "same_id": "same_id_lem", "fresh-kernel": "fresh_kernel_lem",
    "pick-refused": "pick_refused_lem", "with-limit": "with_limit_lem", "currentId": "current_task_id", "ticksToMs": "ms_of_ticks",
}
TYPES = {"isAnswered": "IsAnswered"}
# Where a definition and the call's constructor of that name are both read, the definition is named with its module.
QUALIFIED = [("crates/book_exam/specs/Odd.antt", "reapOne"), ("crates/book_exam/specs/Charges.antt", "reapOne")]
OWN = re.compile(r"Rattle\.(\w+)")


def files(kinds):
    for folder, dirs, names in os.walk(TOP):
        dirs[:] = sorted(d for d in dirs if d not in ("out", ".git", "target"))
        for name in sorted(names):
            if name.endswith(kinds):
                yield os.path.join(folder, name)


def snake(name):
    return re.sub(r"(?<=[a-z0-9])[A-Z]", lambda m: "_" + m[0].lower(), name).replace("-", "_")


def is_proof(path):
    return os.path.basename(path) in ("Proof.antt", "Invariants.antt", "Answers.antt")


def table():
    """Old and new spelling of each name that is declared and changes."""
    own = set()
    for path in files((".antt",)):
        if is_proof(path):
            continue
        for line in open(path, encoding="utf-8"):
            if re.match(r" *(--|use|mod|pub use|pub mod)", line):
                continue
            if m := DECLARED.match(line):
                own.add(m[3])
            elif m := SEVERAL.match(line):
                own.update(m[1].split())
    turned = {}
    for name in own:
        if not name[0].islower() or not re.fullmatch(r"[\w'₀₁₂ʷ-]+", name):
            continue
        new = FALLEN.get(name) or TYPES.get(name) or snake(name)
        if new != name:
            turned[name] = new
    return turned


def imported(text, crates):
    """The names that a file has from libraries, and those that it has from the repository."""
    theirs, ours = set(), set()
    for m in re.finditer(r"\buse ([^\s;{]+?)(?:\.\{([^}]*)\})?(?: as [^\s;]+)?(?=[;\s]|$)", text):
        path, names = m[1], m[2] or ""
        head = OWN.match(path)
        to = ours if head and head[1] in crates else theirs
        to.update(n.strip().split(" as ")[0].strip("«»") for n in names.split(",") if n.strip())
    return theirs, ours


def turn(path, turned, crates):
    with open(path, encoding="utf-8") as f:
        text = f.read()
    was = text
    theirs, ours = imported(text, crates)
    stay = theirs - ours
    proof = is_proof(path)
    here = set(DECLARED.match(l)[3] for l in text.splitlines() if DECLARED.match(l)) if proof else set()

    def word(m, inside):
        old = m[0]
        if old not in turned or old in stay:
            return old
        before = inside[m.start() - 1 : m.start()]
        if proof and before == "." and not re.search(r"\b[A-Z]\w*\.$", inside[: m.start()]):
            return old
        if proof and (old in here or old not in ours and before != "." and f"specs.{old}" not in text):
            return old
        return turned[old]

    if path.endswith(".md"):
        text = re.sub(r"`[^`\n]+`", lambda s: WORD.sub(lambda m: word(m, s[0]), s[0]), text)
    elif path.endswith(".rt"):
        out = []
        for line in text.splitlines(keepends=True):
            code, mark, comment = line.partition("//") if line.lstrip().startswith("//") else (line, "", "")
            code = WORD.sub(lambda m: word(m, code), code)
            comment = re.sub(r"`[^`\n]+`", lambda s: WORD.sub(lambda m: word(m, s[0]), s[0]), comment)
            out.append(code + mark + comment)
        text = "".join(out)
    elif path.endswith((".edit", ".twin")):
        out = []
        for line in text.splitlines(keepends=True):
            if line.startswith("# "):
                line = re.sub(r", in ([\w-]+)$", lambda m: ", in " + turned.get(m[1], m[1]), line.rstrip("\n")) + "\n"
            else:
                line = WORD.sub(lambda m: word(m, line), line)
            out.append(line)
        text = "".join(out)
    else:
        out = []
        for line in text.splitlines(keepends=True):
            if line.lstrip().startswith("--"):
                line = re.sub(r"`[^`\n]+`", lambda s: WORD.sub(lambda m: word(m, s[0]), s[0]), line)
            else:
                line = WORD.sub(lambda m: word(m, line), line)
            out.append(line)
        text = "".join(out)
    if text != was:
        with open(path, "w", encoding="utf-8") as f:
            f.write(text)


def main():
    crates = {c for c in os.listdir(os.path.join(TOP, "crates"))}
    for file, name in QUALIFIED:
        path = os.path.join(TOP, file)
        text = open(path, encoding="utf-8").read()
        if f", {name}" in text:
            text = text.replace(f", {name}}}", "}", 1).replace(f", {name},", ",", 1)
            module = re.search(r"use (Rattle\.kernel\.specs\.Scheduler)\.\{", text)
            if not re.search(r"^use Rattle\.kernel\.specs\.Scheduler$", text, re.M):
                text = text[: module.start()] + "use Rattle.kernel.specs.Scheduler\n" + text[module.start() :]
            text = re.sub(rf"(?<![\w.]){name}\b", f"Scheduler.{name}", text)
            open(path, "w", encoding="utf-8").write(text)
    turned = table()
    for path in files((".antt", ".rt", ".edit", ".twin", ".md")):
        turn(path, turned, crates)
    for old in sorted(turned):
        print(old, turned[old])


main()
