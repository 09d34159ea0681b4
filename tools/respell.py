#!/usr/bin/env python3
"""Respells the repository's own definitions, lemmas and record fields: words in snake case, types in camel case.

    python3 tools/respell.py [TOP]

It goes by text, over the files of crates/. A name is one that an .antt file of specs/ or proofs/ declares and that holds
a dash or a prime. Names that Rattle makes from the source (goals and steps of a proof) keep their dashes. Comments and
strings are left alone. It says which names fall together with others and then changes nothing.
"""
import os
import re
import sys

top = sys.argv[1] if len(sys.argv) > 1 else "."
os.chdir(top)

WORD = r"[A-Za-z_◌ℓℕℤΣ][\w\-'′₀₁₂₃]*"
DECLARED = re.compile(rf"^[ \t]*(?:pub |abbrev |unfoldable |module )*(?P<name>{WORD})[ \t]*:[ \t]*(?P<type>.*)$", re.M)
TYPES = re.compile(rf"^[ \t]*(?:pub )?(?:record|data)[ \t]+(?P<name>{WORD})", re.M)


def files():
    for folder, _, names in os.walk("crates"):
        if re.match(r"crates/\w+/out(/|$)", folder):
            continue
        for name in sorted(names):
            if name.endswith((".antt", ".rt", ".edit")):
                yield os.path.join(folder, name)


def code(text, mark):
    """The text without its comments, line by line."""
    return "\n".join(line.split(mark)[0] for line in text.split("\n"))


def turned(name):
    name = name.replace("′", "'")
    if name[0].isupper():
        return "".join(part[:1].upper() + part[1:] for part in name.split("-"))
    return name.replace("-", "_")


texts = {f: open(f, encoding="utf-8").read() for f in files()}
old, others = set(), set()
for f, text in texts.items():
    if not f.endswith(".antt"):
        continue
    plain = code(text, "--")
    for found in DECLARED.finditer(plain):
        name, kind = found.group("name"), found.group("type")
        made = kind.startswith(("goal.", "given.", "need."))
        (old if ("-" in name or "′" in name) and not made else others).add(name)
    for found in TYPES.finditer(plain):
        name = found.group("name")
        (old if "-" in name or "′" in name else others).add(name)

news = {name: turned(name) for name in old}
together = sorted(
    f"{name} -> {new}" for name, new in news.items() if new in others or list(news.values()).count(new) > 1
)
if together:
    print("these names fall together with others:", *together, sep="\n  ")
    sys.exit(1)

STRING = re.compile(r'("(?:[^"\\]|\\.)*")')
TOKEN = re.compile(rf"(?<![\w\-'′₀₁₂₃])(?P<before>(?:goal|given|c|w)\.|)(?P<name>{WORD})")


def respelled(text, mark):
    def one(found):
        before, name = found.group("before"), found.group("name")
        return found.group(0) if before or name not in news else news[name]

    out = []
    for line in text.split("\n"):
        cut = line.find(mark)
        body, rest = (line, "") if cut < 0 else (line[:cut], line[cut:])
        parts = STRING.split(body)
        parts[::2] = [TOKEN.sub(one, part) for part in parts[::2]]
        out.append("".join(parts) + rest)
    return "\n".join(out)


changed = 0
for f, text in texts.items():
    mark = "//" if f.endswith(".rt") else "--"
    new = respelled(text, mark)
    if new != text:
        changed += 1
        open(f, "w", encoding="utf-8").write(new)
print(f"respell: {len(news)} names, {changed} files changed")
