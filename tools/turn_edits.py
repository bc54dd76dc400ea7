#!/usr/bin/env python3
"""Turns the texts of the wrong changes and of the faults to today's spelling, after port.py, spell_names.py and `rt fmt`.

usage: turn_edits.py [TOP]

Which files: crates/*/must-fail/*.edit, crates/*/wrong/*.edit and *.twin, tests/differential/faults/*.edit. In a pair whose file is of
specs/ or proofs/, or whose text is a clause's, it turns

  k .tasks                      k.tasks, and `slot k i .state` (slot k i).state
  «state»                       state, where it needs no quotes
  queuedAt, at-tick             queued_at, at_tick: a name that the tree has in snake case alone; in heads too
  _+_, getD, ′                  ◌+◌, get_or, '
  Rattle·kernel.specs.Load      Rattle.kernel.specs.Load
  { ⌜ P ⌝ }                     { P }, and `λ r. ⌜ r ≡ x ⌝` result ≡ x
  now (x .entry), (x .exit)     x.old and x.new, or x.now where the file has not that
  use M.{a, b}, with c more     `use M.{` and `use M.{c, `, where M is today's module

A pair that alters a Proof.antt goes: such a proof walked through the code, and today's check finds the proof or has its answers by the
names of goals. `# form: proof` of such a change becomes `# form: goal` (tests/must-fail/run). What is left is in turn_edits.txt, line by
line: lines `- ` of an edit, as they are by then, and the lines `+ ` that stand for them. Where an edit has the latter, or the tree has no
such edit, nothing is done, so it may run again. It prints each edit of which an old text stands in its file any other number of times than once."""
import glob
import os
import re
import sys

TOP = os.path.abspath(sys.argv[1] if len(sys.argv) > 1 else ".")
TABLE = os.path.join(os.path.dirname(os.path.abspath(__file__)), "turn_edits.txt")
WORD = re.compile(r"[^\s(){}\[\].;,@\"«»:`]+")
QUOTED = re.compile(r"«(\w+)»")
RESERVED = set("""data record deriving module where use mod pub package open as unfoldable abbrev axiom unfold unfolding ruleset mutual
    infix infixl infixr elim let in do Type coe fcoe tcoe hcom com""".split())
# What stands before an application, and is no part of it.
BEFORE = set("≡ ≢ ≤ < + - * / % ^ && || → × ⊎ ∷ ++ = : λ ∙ ↦ | ← in then else otherwise if let when".split())
LIBRARY = {"getD": "get_or"}


def words_of(crate):
    """The names that the crate's sources, definitions and lemmas have, and those of the crates that they import from."""
    found = set()
    for part in ("src/**/*.rt", "specs/*.antt", "proofs/*.antt"):
        for path in glob.glob(f"{TOP}/crates/{crate}/{part}", recursive=True):
            found.update(WORD.findall(open(path, encoding="utf-8").read()))
    return found


def snake(name):
    return re.sub(r"(?<=[a-z0-9])[A-Z]", lambda m: "_" + m[0].lower(), name).replace("-", "_")


def name(old, words):
    """Today's spelling of a name."""
    if old in LIBRARY:
        return LIBRARY[old]
    if re.fullmatch(r"_\S+_", old) and not re.search(r"[^\W_]", old):
        return "◌" + old[1:-1] + "◌"
    new = snake(old)
    return new if old[0].islower() and old not in words and new in words else old


def before(text, end):
    """Where the application begins that ends there, and whether it is one word."""
    at, start, one = end, end, True
    while at > 0:
        # a word: what has no space, with what stands in brackets
        word, depth = at, 0
        while word > 0:
            char = text[word - 1]
            if char in ")]}":
                depth += 1
            elif char in "([{":
                if not depth:
                    break
                depth -= 1
            elif not depth and char in " ,;":
                break
            word -= 1
        if word == at or text[word:at] in BEFORE or text[word:at].endswith("."):
            break
        one = start == end
        start = word
        if not word or text[word - 1] != " ":
            break
        at = word - 1
    return start, one


def tight(text):
    """The text with its projections written tight."""
    while found := re.search(r"(?<=[\w'’)}»₀-₉]) \.(?=[\w«])", text):
        start, one = before(text, found.start())
        spine = text[start:found.start()]
        field = re.match(r"«\w+»|[\w'-]+", text[found.end():])[0]
        end = found.end() + len(field)
        new = f"{spine if one else f'({spine})'}.{field.strip('«»')}"
        if start and text[start - 1] == "(" and text[end:end + 1] == ")" and not re.search(r"\w$", text[:start - 1]):
            start, end = start - 1, end + 1
        text = text[:start] + new + text[end:]
    return text


def is_antt(file, text):
    return file.endswith(".antt") or bool(re.search(r"[⌜≡×∷]|ghost use |λ |\w \.\w", text))


def clause(text, has):
    """The text of a clause as it is written today; has: what stands in its file."""
    def points(m):
        where = m[2] if f"{m[1]}.{'old' if m[2] == 'entry' else 'new'}" in has else "now"
        return f"{m[1]}.{ {'entry': 'old', 'exit': 'new'}.get(where, where)}"
    text = re.sub(r"\(now \((\w+) \.(entry|exit)\)\)|now \((\w+) \.(entry|exit)\)", lambda m: points([m[0], m[1] or m[3], m[2] or m[4]]), text)
    text = re.sub(r"λ r\. ⌜ (.*?) ⌝", lambda m: re.sub(r"(?<![\w.])r(?![\w'])", "result", m[1]), text)
    return re.sub(r"⌜ (.*?) ⌝", r"\1", re.sub(r"(?<![\w.])r(?= \.\w)", "result", text))


def turned(file, text, has, words):
    if not is_antt(file, text):
        return text
    text = text.replace("′", "'")
    text = re.sub(r"Rattle·(\w+)·specs\.specs\.|Rattle·(\w+)\.", lambda m: f"Rattle.{m[1]}.specs." if m[1] else f"Rattle.{m[2]}.", text)
    text = WORD.sub(lambda m: name(m[0], words), text)
    text = tight(text if file.endswith(".antt") else clause(text, has))
    return QUOTED.sub(lambda m: m[0] if m[1] in RESERVED else m[1], text)


def imports(old, new, has):
    """The two texts of a pair that adds to an import: what it adds stands first in the list of its module, where that has it not yet."""
    a, b = (re.match(r"((?:ghost )?use )([\w.]+)\.\{(.*?)\}?;?$", text) for text in (old, new))
    if not a or not b or a[2] != b[2] or not a[3]:
        return old, new
    module = a[2] if a[2].startswith("Rattle.") else "Rattle.std.specs.Prelude"
    here = re.search(rf"^{a[1]}{re.escape(module)}\.\{{(.*?)\}}", has, re.M)
    names = [name for name in b[3].split(", ") if name and name not in a[3].split(", ") and (not here or name not in here[1].split(", "))]
    return f"{a[1]}{module}.{{", f"{a[1]}{module}.{{{''.join(name + ', ' for name in names)}"


def pairs(lines):
    """The pairs of an edit: file, old, new, and the numbers of the lines of the two texts."""
    file, old = None, None
    for number, line in enumerate(lines):
        if line.startswith("file: "):
            file = line[6:]
        elif line.startswith("old: "):
            old = number
        elif line.startswith("new:"):
            yield file, old, number


def without_proofs(lines):
    """The lines without the pairs that alter a Proof.antt, and with the form that is left."""
    kept, file, gone = [], None, False
    for line in lines:
        if line.startswith("file: "):
            file = line[6:]
        elif line.startswith("# ") and not line.startswith("# form"):
            file = file if file and not file.endswith("/Proof.antt") else None
        if file and file.endswith("/Proof.antt"):
            gone = True
            continue
        kept.append(line)
    return kept, gone


def by_rule(path, folder, words):
    with open(path, encoding="utf-8") as opened:
        text = opened.read()
    lines, files = text.split("\n"), {}
    for file, old, new in list(pairs(lines)):
        if file.endswith(("/Proof.antt", "/Answers.antt", "/Invariants.antt")):
            continue
        where = f"{folder}/{file}"
        if where not in files:
            files[where] = open(where, encoding="utf-8").read() if os.path.isfile(where) else ""
        texts = [turned(file, lines[number][5:], files[where], words) for number in (old, new)]
        for number, head, rest in zip((old, new), ("old: ", "new: "), imports(*texts, files[where])):
            lines[number] = head + rest if rest else head[:-1]
    lines = [re.sub(r", in ([\w-]+)$", lambda m: ", in " + name(m[1], words), line) if line.startswith("# ") else line for line in lines]
    lines, gone = without_proofs(lines)
    if lines[-1]:
        lines.append("")
    if gone and not any(line.startswith("file: proofs/") for line in lines):
        lines = ["# form: goal" if line == "# form: proof" else line for line in lines]
    return "\n".join(lines)


def table():
    """For each edit the lines that are replaced, and by which."""
    found, steps = {}, None
    for line in open(TABLE, encoding="utf-8").read().split("\n") if os.path.exists(TABLE) else ():
        if line.startswith("= "):
            steps = found.setdefault(line[2:], [])
        elif line.startswith("- "):
            if not steps or steps[-1][1]:
                steps.append(([], []))
            steps[-1][0].append(line[2:])
        elif line.startswith("+ "):
            steps[-1][1].append(line[2:])
        elif line == "-":
            steps[-1][1].append(None)
    return found


def by_table(text, steps):
    for old, new in steps:
        old, new = "\n".join(old) + "\n", "".join(line + "\n" for line in new if line is not None)
        if "\n" + old in "\n" + text and not (new.startswith(old) and new in text):
            text = ("\n" + text).replace("\n" + old, "\n" + new, 1)[1:]
    return text


def faults(text, folder):
    """The pairs whose old text does not stand once."""
    texts = {}
    lines = text.split("\n")
    for file, old, new in pairs(lines):
        where = f"{folder}/{file}"
        if where not in texts:
            texts[where] = open(where, encoding="utf-8").read() if os.path.isfile(where) else ""
        a, b = lines[old][5:], lines[new][4:].removeprefix(" ")
        if texts[where].count(a) != 1:
            yield f"{file}: {texts[where].count(a)} times: {a}"
        texts[where] = texts[where].replace(a, b)


def main():
    steps, words, left = table(), {}, 0
    edits = sorted(glob.glob(f"{TOP}/crates/*/must-fail/*.edit") + glob.glob(f"{TOP}/crates/*/wrong/*.*") + glob.glob(f"{TOP}/tests/differential/faults/*.edit"))
    for path in edits:
        label = os.path.relpath(path, TOP)
        crate = label.split("/")[1] if label.startswith("crates/") else None
        folder = f"{TOP}/crates/{crate}" if crate else f"{TOP}/crates"
        if crate not in words:
            words[crate] = words_of(crate or "*")
        text = by_table(by_rule(path, folder, words[crate]), steps.get(label, ()))
        if text != open(path, encoding="utf-8").read():
            with open(path, "w", encoding="utf-8") as opened:
                opened.write(text)
        for fault in faults(text, folder):
            left += 1
            print(f"{label}: {fault}")
    print(f"turn_edits: {len(edits)} edits; {left} old texts stand otherwise than once")


main()
