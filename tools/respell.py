#!/usr/bin/env python3
"""Spells the names that specs/ and proofs/ declare as today's Rattle does: types in camel case, everything else in snake case.

usage: tools/respell.py [--list]        at the top of the repository, once; --list only prints the table

A name turns as a whole word, in .antt files, in the clauses and ghost lines of .rt files, and in code spans of .md files.
Comments, strings, source names and the names that Rattle makes for goals and steps stay. Where the new spelling is that of a
name in src/ of the same crate, or is in use already, the name gets '_lem' behind it.
"""

import collections
import glob
import re
import sys

WORD = re.compile(r"""[^\s(){}.;,@"«»\[\]`|]+""")
DECLARED = re.compile(
    r"^( *)((?:pub |abbrev |unfoldable |record |data )*)"
    r"([^\s(){}.;,@\"«»|=]+(?: [^\s(){}.;,@\"«»|=:]+)*?)((?: \{[^{}\n]*\}| \([^()\n]*\))*) :(?= |$)(.*)$",
    re.M,
)
GENERATED = re.compile(r"/(Answers|Invariants|Choices)\.antt$")
PLAIN = re.compile(r"^[A-Za-z][\w'-]*$")
# Constructors of Verb: no clause can name a function, so they meet none.
CONSTRUCTORS = {"read-object", "initiate-read", "write-object", "initiate-write", "segment-read", "segment-write"}
HEAD = re.compile(r"(?:^|[\s(,])(?:goal|c|w|l)\.$")


def antt_files():
    return sorted(
        p
        for d in ("specs", "proofs")
        for p in glob.glob(f"crates/*/{d}/**/*.antt", recursive=True)
    )


def rt_files():
    return sorted(glob.glob("crates/*/src/**/*.rt", recursive=True))


def read(path):
    with open(path, encoding="utf-8") as f:
        return f.read()


def camel(name):
    return "".join(part[:1].upper() + part[1:] for part in name.split("-"))


def snake(name):
    name = re.sub(r"(?<=[a-z])(?=[A-Z])|(?<=[A-Z])(?=[A-Z][a-z])", "_", name)
    return name.replace("-", "_").lower()


def declared():
    """Every name that specs/ and proofs/ declare and that is not spelled as wanted, with the crates that declare it."""
    names = collections.defaultdict(set)
    for path in antt_files():
        for m in DECLARED.finditer(read(path)):
            if re.match(r"\s*goal\.", m.group(5)):
                continue
            for name in m.group(3).split():
                if ("-" in name or re.search(r"^[a-z]\w*[A-Z]", name)) and PLAIN.match(name):
                    names[name].add(path.split("/")[1])
    return names


def source_names():
    names = collections.defaultdict(set)
    for path in rt_files():
        for line in read(path).split("\n"):
            code = line.split("//")[0]
            if re.match(r"\s*(ghost use|requires|ensures)", code):
                continue
            names[path.split("/")[1]] |= set(re.findall(r"\b[A-Za-z_]\w*\b", code))
    return names


def words_in_use():
    words = set()
    for path in antt_files() + rt_files():
        words |= set(WORD.findall(read(path)))
    return words


def table():
    used, source = words_in_use(), source_names()
    in_source = set().union(*source.values())
    rows = {}
    taken = collections.Counter()
    for name, crates in sorted(declared().items()):
        new = camel(name) if name[0].isupper() else snake(name)
        meets = any(new in source[crate] for crate in crates) or (new in used and new not in in_source)
        if meets and name not in CONSTRUCTORS:
            new += "_lem"
        taken[new] += 1
        rows[name] = new
    for new, n in taken.items():
        if n > 1:
            sys.exit(f"respell: {n} names would be spelled {new}")
    return rows


def turn(text, rows, generated=False):
    def one(m):
        word = m.group(0)
        if word not in rows:
            return word
        if generated and HEAD.search(text[max(0, m.start() - 8) : m.start()]):
            return word
        return rows[word]

    return WORD.sub(one, text)


def turn_antt(text, rows, generated):
    lines = []
    for line in text.split("\n"):
        cut = re.search(r"(?:^|\s)--(?=\s|$)", line)
        at = cut.start() if cut else len(line)
        lines.append(turn(line[:at], rows, generated) + line[at:])
    return "\n".join(lines)


def turn_rt(text, rows):
    lines = []
    for line in text.split("\n"):
        if '"' in line or line.lstrip().startswith("//"):
            lines.append(line)
        else:
            lines.append(turn(line, rows))
    return "\n".join(lines)


def turn_md(text, rows):
    return re.sub(r"`[^`\n]+`", lambda m: turn(m.group(0), rows), text)


def main():
    rows = table()
    if "--list" in sys.argv[1:]:
        for old, new in sorted(rows.items()):
            print(f"{old}\t{new}")
        return
    for path in antt_files() + rt_files() + sorted(glob.glob("docs/*.md")) + ["README.md"]:
        text = read(path)
        if path.endswith(".antt"):
            new = turn_antt(text, rows, bool(GENERATED.search(path)))
        elif path.endswith(".rt"):
            new = turn_rt(text, rows)
        else:
            new = turn_md(text, rows)
        if new != text:
            with open(path, "w", encoding="utf-8") as f:
                f.write(new)


main()
