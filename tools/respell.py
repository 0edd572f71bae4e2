#!/usr/bin/env python3
"""Brings the names of this repository's own definitions and lemmas to the spelling of today's Rattle: snake case for
words, upper camel case for types. Run once, at the top, right after the kit's port.py.

The names of src/ stay, and so do inputs, outputs and strings. Where a lemma and a definition fall together, the lemma
gets _lem; EXCEPTIONS names what else falls together, by the file's crate.
"""

import glob
import re

TYPES = {"marksSound": "MarksSound", "NoLF": "NoLf"}
# a field or a definition that would have another's name: (old, new), where the old name is as port.py leaves it
EXCEPTIONS = {"inReach": "is_in_reach", "settled_at": "settled_so_far"}
LOCAL = {
    "demands": {"half_at": "half_at_lem"},
    "area": {"by_side": "by_side_lem"},
}
VARIABLES = {"mAt", "wAt"}
# what port.py would turn in an edit, were it one of its files
EDITS = [
    (r"\((\w+) \.(\w+)\)", r"\1.\2"),
    (r"(\w) \.(\w)", r"\1.\2"),
    (r"\bgetD\b", "get_or"),
    (r"_([+*/])_", r"◌\1◌"),
    (r"Rattle·(\w+)", r"Rattle.\1"),
    (r"\br ≡", "result ≡"),
    (r"now \((\w+)\.entry\.text\)", r"\1.entry.text.now"),
]
DECLARED = re.compile(
    r"^\s*(?:(?:abbrev|unfoldable)\s+)?(?:pub\s+)?(?:(?:record|data)\s+)?([^\s(){}:;,]+)(?:\s*\{[^}]*\})?"
    r"(?:\s*[({][^(){}]*[)}])*\s*:\s"
)
WORD = r"(?<![\w'-])%s(?![\w'-])"


def lines_of_code(text):
    return [x for x in text.split("\n") if not x.lstrip().startswith("--") and not x.startswith("use ")]


def snake(name):
    return re.sub(r"(?<=[a-z0-9])[A-Z]", lambda m: "_" + m.group(0).lower(), name.replace("-", "_")).lower()


def own_names(files):
    names, fields = set(), set()
    for f in files:
        record = None
        for line in lines_of_code(open(f).read()):
            found = DECLARED.match(line)
            indent = len(line) - len(line.lstrip())
            if line.strip() and record is not None and indent <= record:
                record = None
            if found:
                names.add(found.group(1))
                if record is not None:
                    fields.add(found.group(1))
            if re.match(r"\s*(pub )?record ", line):
                record = indent
    return names, fields


def aliases(files):
    return {a for f in files for a in re.findall(r" as ([a-z]\w*[A-Z]\w*)", open(f).read())}


def table(names, words):
    definitions = {n for n in names if "-" not in n}
    taken = {snake(n) if n[0].islower() else n for n in definitions}
    new = {}
    for n in sorted(names | words):
        if n in TYPES:
            new[n] = TYPES[n]
        elif n in EXCEPTIONS:
            new[n] = EXCEPTIONS[n]
        elif n[0].islower() and re.search("[-A-Z]", n):
            new[n] = snake(n) + ("_lem" if "-" in n and snake(n) in taken else "")
    return new


# Behind a dot stands a field, or a name of the module before it; a step of a proof keeps its name.
def turn(text, new, fields, modules):
    words = "|".join(map(re.escape, sorted(new, key=len, reverse=True)))
    pattern = re.compile(r"([\w'-]*)(\.?)" + WORD % f"({words})")

    def one(m):
        before, dot, name = m.groups()
        turned = not dot or before in modules or name in fields
        return before + dot + (new[name] if turned else name)

    return pattern.sub(one, text)


# In prose a name with a dash may be plain English: there it is turned only between backticks.
def turn_prose(text, new):
    plain = {o: n for o, n in new.items() if "-" not in o and "_" not in o}
    return turn(re.sub(r"`[^`\n]*`", lambda m: turn(m.group(0), new, new, []), text), plain, plain, [])


def turn_file(name, new, fields, comment):
    text = open(name).read()
    modules = re.findall(r" as ([\w-]+)$", text, re.M)
    said = "\n".join(
        turn_prose(x, new) if comment and x.lstrip().startswith(comment) else turn(x, new, fields, modules)
        for x in text.split("\n")
    )
    if said != text:
        open(name, "w").write(said)


# port.py leaves the edits as they were.
def turn_edit(name, new, names):
    text = open(name).read()
    for old, today in EDITS:
        text = re.sub(old, today, text)
    older = {w: snake(w) for w in re.findall(r"[a-z][\w'-]*", text) if w != snake(w) and snake(w) in names}
    open(name, "w").write(turn(text, older | new, older | new, []))


def main():
    stated = sorted(glob.glob("crates/*/specs/*.antt") + glob.glob("crates/*/proofs/*.antt"))
    sources = sorted(glob.glob("crates/*/src/*.rt"))
    proofs = sorted(glob.glob("crates/*/proofs/**/*.antt", recursive=True))
    names, fields = own_names(stated)
    new = table(names, aliases(stated + sources + proofs) | VARIABLES)
    for name in sorted(set(stated + proofs)) + sources:
        comment = "--" if name.endswith(".antt") else "//"
        turn_file(name, new | LOCAL.get(name.split("/")[1], {}), fields, comment)
    names, _ = own_names(stated)
    for name in sorted(glob.glob("crates/*/must-fail/*.edit")):
        turn_edit(name, new, names)
    for name in ["README.md", *sorted(glob.glob("docs/*.md"))]:
        text = open(name).read()
        # what port.py turned already
        older = {w for w in re.findall(r"[a-z][\w'-]*", text) if w != snake(w) and snake(w) in names and w not in new}
        open(name, "w").write(turn_prose(text, new | {w: snake(w) for w in older}))


if __name__ == "__main__":
    main()
