#!/usr/bin/env python3
"""Respells the repository's own antt names as today's Rattle spells names, once, right behind /opt/rattle/port/port.py.

usage: python3 tools/respell.py [--names]     at the top of a repository; --names prints the table and writes nothing

A name of two words in one, as `numberOf`, becomes `number_of`, and a name of the repository's with hyphens, as `none-shorter`, becomes
`none_shorter`. Only names that specs/ or a file of lemmas in proofs/ declares are turned. A name stays where the new one is taken, where the
library has one of that name too, or where a proof of a function declares it as well, since the check makes names there.
Comments are left alone but for names of two words in one, which are no English.
"""
import glob
import re
import sys

DECL = re.compile(r"^[ \t]*(?:(?:abbrev|unfoldable|pub|open|private|record|data|ghost)[ \t]+)*([^\s(){}:;,.=λ→«»]+)[ \t]*(?::|\(|\{)", re.M)
USE = re.compile(r"^\s*(?:ghost |pub )?use ([\w.'-]+)\.\{([^}]*)\}", re.M)
TOKEN = re.compile(r"[^\W\d][\w'-]*")

# Lemmas on the definition of that name, which port.py gave the definition's new name: they get their hyphens back.
LEMMAS = "code_is in_rows is_address is_digit left_by no_number one_more read_next stands_at too_short".split()
# The new name is that of a field.
OTHER = {"minusZero": "minus_zero_with"}

# Names that a file has for itself.
LOCAL = "noSetup progressOf cardVals meantOne otherVals cardsTo onIt answerVals".split()


def bare(text):
    return re.sub(r"--.*", "", text)


def snake(name):
    return re.sub(r"(?<=[a-z0-9])(?=[A-Z])", "_", name).lower()


def main(argv):
    files = sorted(glob.glob("crates/*/specs/**/*.antt", recursive=True) + glob.glob("crates/*/proofs/**/*.antt", recursive=True))
    files = [f for f in files if "/out/" not in f]
    sources = sorted(f for f in glob.glob("crates/*/src/**/*.rt", recursive=True))
    crates = {f.split("/")[1] for f in files}
    text = {f: open(f, encoding="utf-8").read() for f in files + sources}
    if not any(re.search(r"^ *(?:abbrev |unfoldable )*pub [a-z]+[A-Z]", t, re.M) for f, t in text.items() if "/specs/" in f):
        sys.exit("respell: nothing to do: specs/ has no name of two words in one")
    for f in files:
        text[f] = re.sub(r"(?<![\w'.-])(?:" + "|".join(LEMMAS) + r")(?![\w'-])", lambda m: m.group(0).replace("_", "-"), text[f])
    lemmas = [f for f in files if "/specs/" in f or f.count("/") == 3]
    made = [f for f in files if f not in lemmas]
    declared, made_there, library = set(), set(), set()
    for f in lemmas:
        declared |= {m.group(1) for m in DECL.finditer(bare(text[f]))}
    for f in made:
        made_there |= {m.group(1) for m in DECL.finditer(bare(text[f]))}
    for f in files + sources:
        for m in USE.finditer(text[f]):
            own = re.match(r"Rattle\.(\w+)\.(specs|proofs)", m.group(1))
            if not (own and own.group(1) in crates):
                library |= {n.strip() for n in m.group(2).split(",")}
    fields = {m.group(1) for f in sources for m in re.finditer(r"^\s+(?:pub )?(\w+): ", text[f], re.M)}
    table, kept = {name: snake(name) for name in LOCAL}, {}
    for name in sorted(declared, key=lambda n: ("-" in n, n)):
        if not TOKEN.fullmatch(name) or name[0].isupper():
            continue
        camel = re.search(r"[a-z0-9][A-Z]", name)
        new = snake(name) if camel else name
        if "-" in name and name not in made_there:
            new = new.replace("-", "_")
        if new == name:
            continue
        new = OTHER.get(name, new)
        if name in library:
            kept[name] = "a name of the library"
        elif new in declared | made_there | library | fields or new in table.values():
            kept[name] = f"{new} is taken"
        else:
            table[name] = new
    if argv:
        for k, v in table.items():
            print(k, v)
        for k, v in kept.items():
            print("kept:", k, v)
        return
    turn = lambda t, with_hyphens: TOKEN.sub(lambda m: table.get(m.group(0), m.group(0)) if with_hyphens or "-" not in m.group(0) else m.group(0), t)
    for f, t in text.items():
        before = open(f, encoding="utf-8").read()
        lines = []
        for line in t.split("\n"):
            mark = "//" if f.endswith(".rt") else "--"
            at = line.find(mark)
            code, said = (line, "") if at < 0 else (line[:at], line[at:])
            lines.append(turn(code, f.endswith(".antt") or "ghost use" in code or "{" in code) + turn(said, False))
        new = "\n".join(lines)
        if new != before:
            with open(f, "w", encoding="utf-8") as out:
                out.write(new)
    print(f"respell: {len(table)} names, {len(kept)} kept")


main(sys.argv[1:])
