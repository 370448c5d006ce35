#!/usr/bin/env python3
"""Spells the repository's own definitions, lemmas, fields and constructors as the toolchain's library does.

usage: python3 tools/spell_names.py [--dry]        at the top of the repository, once, right after the toolchain's port script

A name in words joined by dashes or in lower camel case becomes snake case: `gateOf` is `gate_of`, `writing-end` is `writing_end`.
Types, modules and facts keep their capitals. Functions of src/, exported names, strings, inputs and outputs stay as they are.
A lemma in dashes that would have a definition's name gets `_lem`. Other names that would fall together are in APART, each with what
it is called instead.
"""
import os
import re
import sys

TOKEN = re.compile(r"[^\s(){};,\[\].«»\"`|]+")
DECLARED = re.compile(r"^\s*(?:abbrev |unfoldable |pub )*([^\s(){};,\[\].«»]+) :(?: |$)")
HEAD = re.compile(r"^\s*(?:pub )?(record|data) ([^\s(){};,]+)")
MEMBER = re.compile(r"^  (?:pub )?((?:[^\s(){};,:]+ )+):(?: |$)")
APART = {"xor_all": "xor_all_lem", "in_bytes": "in_bytes_lem", "bit-xor": "bit_xor_lem", "bit-and": "bit_and_lem", "with-pins": "with_pins"}
TAKEN = set()


def spelled(name):
    """The name in today's spelling."""
    if name in APART:
        return APART[name]
    if not re.match(r"[a-z]", name):
        return name
    new = plainly(name)
    return new + "_lem" if "-" in name and new in TAKEN else new


def plainly(name):
    words = []
    for part in name.split("-"):
        part = part.replace("getD", "get_or")
        words.append(re.sub(r"(?<=[a-z0-9])([A-Z])", lambda m: "_" + m.group(1).lower(), part))
    return "_".join(words)


def files(ending):
    for folder, dirs, names in os.walk("crates"):
        dirs[:] = sorted(d for d in dirs if d != "out")
        for n in sorted(names):
            if n.endswith(ending):
                yield os.path.join(folder, n)


def of_function(path):
    """Whether the file is part of one function's proof: its own names are the toolchain's."""
    parts = path.split("/")
    return parts[2] == "proofs" and len(parts) > 4


def declared():
    found = set()
    for path in files(".antt"):
        if of_function(path):
            continue
        inside = False
        for line in open(path, encoding="utf-8"):
            m = DECLARED.match(line)
            if m:
                found.add(m.group(1))
            if HEAD.match(line):
                inside = True
            elif not line.strip():
                inside = False
            m = MEMBER.match(line)
            if m and inside:
                found.update(m.group(1).split())
    TAKEN.update(plainly(n) for n in found if "-" not in n)
    return {n for n in found if spelled(n) != n}


def local(path, names):
    """Names of variables in a lemma file, in the old spelling too."""
    found = set()
    for line in open(path, encoding="utf-8"):
        if line.startswith("use "):
            continue
        for m in re.finditer(r"(?:let |λ |λ \()([^\s(){};,.:=]+)", line):
            n = m.group(1)
            if n not in names and spelled(n) != n:
                found.add(n)
    return found


def turned(text, names):
    """The text with each of the names spelled anew; in a comment only names in camel case and names in backticks."""
    out = []
    for line in text.split("\n"):
        at = re.search(r"(^|\s)(--|//)(\s|$)", line)
        code, comment = (line[: at.start()], line[at.start():]) if at else (line, "")
        code = TOKEN.sub(lambda m: spelled(m.group(0)) if m.group(0) in names else m.group(0), code)
        comment = re.sub(r"`([^`\s]+)`", lambda m: "`" + (spelled(m.group(1)) if m.group(1) in names else m.group(1)) + "`", comment)
        comment = TOKEN.sub(
            lambda m: spelled(m.group(0)) if m.group(0) in names and re.search(r"[a-z][A-Z]", m.group(0)) else m.group(0), comment)
        out.append(code + comment)
    return "\n".join(out)


def main():
    dry = "--dry" in sys.argv
    names = declared()
    apart = 0
    for path in list(files(".antt")) + list(files(".rt")):
        text = open(path, encoding="utf-8").read()
        own = names if path.endswith(".rt") or of_function(path) else names | local(path, names)
        new = turned(text, own)
        if path.endswith(".antt"):
            code = re.sub(r"(^|\s)--(\s.*)?$", "", text, flags=re.M)
            seen = {}
            for m in TOKEN.finditer(code):
                t = m.group(0)
                s = spelled(t) if t in own else t
                if seen.setdefault(s, t) != t:
                    apart += 1
                    print(f"{path}: `{seen[s]}` and `{t}` fall together")
                    seen[s] = t
        if new != text and not dry:
            open(path, "w", encoding="utf-8").write(new)
    print(f"{len(names)} names; {apart} fall together")
    return 1 if apart else 0


if __name__ == "__main__":
    sys.exit(main())
