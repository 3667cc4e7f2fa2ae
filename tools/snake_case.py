#!/usr/bin/env python3
"""Brings the definitions and lemmas of crates/ to one spelling: words in snake case, types in upper camel case.

usage: python3 tools/snake_case.py [--look]      at the top of the repository; --look only says what would change

A name that a .antt file declares, or that an import gives with `as`, is respelled where it stands as a whole word, in the
.antt files, and in the clauses and imports of the .rt files. What the checker names itself (goals, steps of a proof) stays,
and so do comments, texts and what src/ declares. A new name that something else has already is refused, or takes the
spelling that TAKEN gives.
"""

import os
import re
import sys

TOP = "crates"
WORD = re.compile(r"[^\W\d][\w'′-]*")
DECLARED = re.compile(r"^\s*(?:(?:abbrev|unfoldable)\s+)?(?:pub\s+)?(?:(?:record|data)\s+)?([^\W\d][\w'′-]*)(?=(?:\s+[({][^=]*)?\s+:(?:\s|$))(?!.*:\s+goal\.)")
ALIAS = re.compile(r"\bas ([^\W\d][\w'′-]*)")
IMPORT = re.compile(r"^\s*(?:ghost )?use ([^\s{]+)\.\{([^}]*)\}")

# A name whose plain respelling is a field, a constant, a method or a word of the library: what it becomes instead.
TAKEN = {"child-type": "child_type_of", "inNote": "broken_at", "link-call": "link_or_unlink"}


def files():
    for folder, dirs, names in os.walk(TOP):
        dirs[:] = sorted(d for d in dirs if d not in ("out", "target"))
        for name in sorted(names):
            if name.endswith((".antt", ".rt")):
                yield os.path.join(folder, name)


def respelled(name):
    """The name in the new spelling."""
    if name in TAKEN:
        return TAKEN[name]
    if name[0].isupper():
        return "".join(part[:1].upper() + part[1:] for part in name.split("-"))
    humps = re.sub(r"(?<=[a-z0-9])([A-Z])", lambda m: "_" + m.group(1).lower(), name)
    return humps.replace("-", "_").replace("′", "'")


def split(line, mark):
    """The line's text and its comment."""
    at = 0
    quoted = False
    while at < len(line):
        if line[at] == '"' and not (at and line[at - 1] in "\\'"):
            quoted = not quoted
        if not quoted and line.startswith(mark, at) and (mark == "//" or at == 0 or line[at - 1] == " "):
            return line[:at], line[at:]
        at += 1
    return line, ""


def declared(texts):
    names = {}
    for path, text in texts.items():
        antt = path.endswith(".antt")
        for line in text.split("\n"):
            code, _ = split(line, "--" if antt else "//")
            found = []
            if antt:
                m = DECLARED.match(code)
                if m:
                    found.append(m.group(1))
            if code.lstrip().startswith(("use ", "ghost use ")):
                found += ALIAS.findall(code)
            for name in found:
                names.setdefault(name, set()).add(path)
    return names


def foreign(text):
    """The names that the file imports from libraries that are not this repository's."""
    crates = os.listdir(TOP)
    names = set()
    for line in text.split("\n"):
        m = IMPORT.match(line)
        if m and m.group(1).split(".")[1] not in crates:
            names.update(WORD.findall(m.group(2)))
    return names


def turned(path, text, names):
    antt = path.endswith(".antt")
    kept = foreign(text)
    names = {old: new for old, new in names.items() if old not in kept}
    lines = []
    for line in text.split("\n"):
        code, comment = split(line, "--" if antt else "//")
        pieces = re.split(r'("(?:[^"\\]|\\.)*")', code)
        for i in range(0, len(pieces), 2):
            pieces[i] = WORD.sub(lambda m: names.get(m.group(0), m.group(0)), pieces[i])
        comment = re.sub(r"`([^`]+)`", lambda m: "`" + WORD.sub(lambda w: names.get(w.group(0), w.group(0)), m.group(1)) + "`", comment)
        lines.append("".join(pieces) + comment)
    return "\n".join(lines)


def main():
    look = "--look" in sys.argv[1:]
    texts = {}
    for path in files():
        with open(path, encoding="utf-8") as f:
            texts[path] = f.read()
    own = declared(texts)
    names = {name: respelled(name) for name in own if respelled(name) != name}
    words = {}
    for path, text in texts.items():
        for w in WORD.findall(text):
            words.setdefault(w, set()).add(path)
    clashes = 0
    targets = {}
    for old, new in sorted(names.items()):
        if new in targets:
            print(f"{old} and {targets[new]} fall together as {new}")
            clashes += 1
        targets[new] = old
        if new in words:
            print(f"{old}: {new} stands already in {', '.join(sorted(words[new])[:6])}")
            clashes += 1
    print(f"{len(names)} names, {clashes} to look at")
    if look:
        for old, new in sorted(names.items()):
            print(f"  {old} -> {new}")
        return
    for path, text in texts.items():
        new = turned(path, text, names)
        if new != text:
            with open(path, "w", encoding="utf-8") as f:
                f.write(new)


if __name__ == "__main__":
    main()
