#!/usr/bin/env python3
"""Spells the repository's own definitions, lemmas and fields as Rattle's library does.

usage: python3 tools/spell.py      at the top of the repository

Words are in snake case, types in camel case: rate-of becomes rate_of, Held-under becomes HeldUnder. Two get another
name, since theirs would be that of a field. Names that other libraries have, names that Rattle makes for a function's
goals, strings and comments stay as they are, but the list of definitions at the head of a file follows their names.
"""

import os
import re

CRATES = "crates"
GOALS = ("Answers.antt", "Invariants.antt", "Proof.antt", "Choices.antt")
DASHED = re.compile(r"(?<![\w'\u25cc-])[A-Za-z_\u25cc][\w'\u25cc]*(?:-[\w'\u25cc]+)+(?![\w'\u25cc-])")
IMPORT = re.compile(r"use ([A-Za-z][\w.+]*)\.\{([^}]*)\}")
# the names that head a line of a file's list of its definitions
LISTED = re.compile(r"(?:--   +(?:\S+(?: \S+)*(?=  )|\S+))?")
# names that would fall together with a ghost field of the sheets
APART = {"prices-fit": "prices_in_limits", "terms-fit": "terms_in_limits"}


def files():
    for folder, dirs, names in os.walk(CRATES):
        dirs[:] = sorted(d for d in dirs if d != "out")
        for name in sorted(names):
            if name.endswith((".antt", ".rt")):
                yield os.path.join(folder, name)


def parts(text, mark):
    """The text in pieces: (kind, piece), the kind being code, string or comment."""
    out = []
    last = 0
    for m in re.finditer(r'"(?:[^"\\\n]|\\.)*"|' + mark + r"[^\n]*", text):
        out.append(("code", text[last : m.start()]))
        out.append(("string" if m.group(0)[0] == '"' else "comment", m.group(0)))
        last = m.end()
    out.append(("code", text[last:]))
    return out


def mark_of(path):
    return "//" if path.endswith(".rt") else "--"


def spelled(name):
    if name in APART:
        return APART[name]
    if name[0].isupper():
        return "".join(word[:1].upper() + word[1:] for word in re.split("[-_]", name))
    return name.replace("-", "_")


def own_names(texts):
    """The dashed names of definitions, contracts and lemmas that no library and no function's goals gave."""
    own, other = set(), set()
    crates = set(os.listdir(CRATES))
    for path, text in texts.items():
        code = "".join(piece for kind, piece in parts(text, mark_of(path)) if kind == "code")
        for m in IMPORT.finditer(code):
            words = m.group(1).split(".")
            made = len(words) > 4 and words[-1] in ("Goals", "Given")
            if words[0] != "Rattle" or words[1] not in crates or made:
                other.update(word.strip().split(" as ")[0] for word in m.group(2).split(","))
        if os.path.basename(path) not in GOALS:
            own.update(DASHED.findall(code))
    return own - other


def main():
    texts = {}
    for path in files():
        with open(path, encoding="utf-8") as f:
            texts[path] = f.read()
    own = own_names(texts)
    for path, text in texts.items():
        new = []
        for kind, piece in parts(text, mark_of(path)):
            if kind == "string" or (kind == "comment" and path.endswith(".rt")):
                new.append(piece)
                continue
            end = len(piece) if kind == "code" else LISTED.match(piece).end()
            turned = DASHED.sub(lambda m: spelled(m.group(0)) if m.group(0) in own else m.group(0), piece[:end])
            new.append((turned if kind == "code" else turned.ljust(end)) + piece[end:])
        if "".join(new) != text:
            with open(path, "w", encoding="utf-8") as f:
                f.write("".join(new))


if __name__ == "__main__":
    main()
