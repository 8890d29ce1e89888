#!/usr/bin/env python3
"""Brings this repository's own definitions and lemmas to today's spelling: words in snake case, primes as apostrophes.

usage: tools/respell.py [ROOT]      once, right after the kit's port.py
       tools/respell.py --names     prints the names and what they become, and changes nothing

It renames what crates/*/specs and crates/*/proofs declare (top-level, in `where`, in records and data), in .antt files, in the ghost
lines and clauses of .rt files, and in comments where a name stands in backticks. Names of src/, strings and types stay.
"""

import os
import re
import sys

DECLARED = re.compile(r"^\s*((?:(?:pub|abbrev|unfoldable|opaque|infix\w*|\d+|let|in)\s+)*)([^\s:(){}.,=]+(?:\s+[^\s:(){}.,=]+)*)\s+:(?:\s|$)")
WORD = re.compile(r"[^\s(){}\[\],;.`\"=:]+")


# A lemma that would have the name of the definition that it is about gets `_lem`.
LEMMAS = {name: snake_name + "_lem" for name, snake_name in [
    ("entry-reading", "entry_reading"),
    ("entry-written", "entry_written"),
    ("is-entry", "is_entry"),
    ("put-at", "put_at"),
    ("ran-of", "ran_of"),
    ("row-at", "row_at"),
    ("trap-of", "trap_of"),
]}

# Names that would hide a definition in these files alone.
LOCAL = {
    "crates/demands/proofs/Steps.antt": {"in_window": "in_window_lem"},
    "crates/csr/specs/Steps.antt": {"in_window": "inside"},
}


def snake(name):
    if name in LEMMAS:
        return LEMMAS[name]
    out = name.replace("\u2032", "'").replace("-", "_")
    out = re.sub(r"(?<=[a-z0-9])(?=[A-Z])", "_", out)
    return out.lower()


def files(root, ending):
    for folder, dirs, names in os.walk(os.path.join(root, "crates")):
        dirs[:] = sorted(d for d in dirs if d != "out")
        for name in sorted(names):
            if name.endswith(ending):
                yield os.path.join(folder, name)


def read(path):
    with open(path, encoding="utf-8") as it:
        return it.read()


def without_comment(line):
    at = line.find("--")
    return line if at < 0 or (at > 0 and line[at - 1] not in " \t") else line[:at]


def declared(root):
    found = {}
    for path in files(root, ".antt"):
        for line in read(path).splitlines():
            m = DECLARED.match(without_comment(line))
            if not m:
                continue
            for name in m.group(2).split():
                if name[0].islower() and re.search(r"[a-z0-9]-[A-Za-z0-9]|[a-z0-9][A-Z]|\u2032", name):
                    found.setdefault(name, set()).add(os.path.relpath(path, root))
    return found


def imported(text):
    """The names that a file takes from elsewhere than this repository."""
    others = set()
    for m in re.finditer(r"use ([\w.\u00b7]+)\.\{([^}]*)\}", text):
        names = [n.split()[-1] for n in m.group(2).split(",") if n.strip()]
        if not re.match(r"Rattle\.(?!std\b|core\b)", m.group(1)):
            others.update(names)
    return others


def renamed_code(text, names, keep):
    def one(m):
        word = m.group(0)
        if word not in names or word in keep:
            return word
        before = text[: m.start()]
        if before.endswith("."):
            owner = re.search(r"([^\s(){}\[\],;]*)\.$", before).group(1)
            if not FIELDS.get(word) and not re.match(r"[A-Z]", owner.split(".")[-1] or "x"):
                AFTER_DOT.append((word, owner))
                return word
        return names[word]

    return WORD.sub(one, text)


def renamed_comment(text, names):
    def quoted(m):
        return "`" + WORD.sub(lambda w: names.get(w.group(0), w.group(0)), m.group(1)) + "`"

    return re.sub(r"`([^`]*)`", quoted, text)


FIELDS = {}
AFTER_DOT = []


def fields(root):
    for path in files(root, ".antt"):
        inside = None
        for line in read(path).splitlines():
            code = without_comment(line)
            if re.match(r"^\s*(pub\s+)?record\s", code) or re.match(r"^\s*(pub\s+)?(abbrev\s+)?(pub\s+)?record\b", code):
                inside = len(code) - len(code.lstrip())
                continue
            if inside is not None and code.strip():
                depth = len(code) - len(code.lstrip())
                if depth <= inside:
                    inside = None
                    continue
                m = DECLARED.match(code)
                if m:
                    for name in m.group(2).split():
                        FIELDS[name] = True


def turned_antt(text, names):
    keep = imported(text)
    out = []
    for line in text.split("\n"):
        code = without_comment(line)
        out.append(renamed_code(code, names, keep) + renamed_comment(line[len(code):], names))
    return "\n".join(out)


def turned_rt(text, names):
    keep = imported(text)
    out = []
    depth = 0
    for line in text.split("\n"):
        at = line.find("//")
        code, comment = (line, "") if at < 0 else (line[:at], line[at:])
        ghost = depth > 0 or re.match(r"\s*(pub\s+)?(ghost|requires|ensures|decreases|invariant)\b", code)
        if ghost:
            depth = max(0, depth + code.count("{") - code.count("}"))
            code = renamed_code(code, names, keep)
        out.append(code + renamed_comment(comment, names))
    return "\n".join(out)


def main(argv):
    only_names = "--names" in argv
    rest = [a for a in argv if not a.startswith("--")]
    root = rest[0] if rest else os.path.dirname(os.path.dirname(os.path.abspath(__file__)))
    found = declared(root)
    fields(root)
    names = {name: snake(name) for name in found}
    if only_names:
        for name in sorted(names):
            print(name, names[name])
        return 0
    for path in files(root, ".antt"):
        old = read(path)
        new = turned_antt(old, {**names, **LOCAL.get(os.path.relpath(path, root), {})})
        if new != old:
            with open(path, "w", encoding="utf-8") as it:
                it.write(new)
    for path in files(root, ".rt"):
        old = read(path)
        new = turned_rt(old, names)
        if new != old:
            with open(path, "w", encoding="utf-8") as it:
                it.write(new)
    for word, owner in sorted(set(AFTER_DOT)):
        print(f"left: {owner}.{word}")
    return 0


if __name__ == "__main__":
    raise SystemExit(main(sys.argv[1:]))
