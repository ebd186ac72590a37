#!/usr/bin/env python3
"""Brings the names of this repository's definitions and lemmas to the spelling of today's Rattle.

usage: python3 tools/snake_names.py [--list]     at the top of the repository, after port.py; --list only prints what it would rename

A definition, a field or a constructor is in snake case, and a record or a fact in upper camel case. In a lemma's name a dash joins two names, of which
each is one of ours or a word of the library, and everything else is joined by an underscore. In the proof of a function, the parts of goals and steps that are
names of Rust code get that code's spelling. Names of Rust code stay, and so do texts between quotation marks. It tells which names fall together,
and which new name was in use before.
"""

import collections
import os
import re
import sys

SIGNATURE = re.compile(r"^(\s*)((?:abbrev |unfoldable |pub |opaque )*)([A-Za-z_][\w'-]*(?: [A-Za-z_][\w'-]*)*)\s*:\s*(.*)$")
DECLARED = re.compile(r"^\s*(?:pub )?(record|data|module)\s+([A-Za-z_][\w'-]*)")
TOKEN = re.compile(r"[A-Za-z_ℕ][\w'ℕ]*(?:-[\w'ℕ*]+)*")
# words of the library that a lemma's name has for a function
LIBRARY = {"length", "take", "drop", "map", "get_or", "set", "sum", "replicate", "bit_xor", "bit_or", "bit_and", "range_with_len", "codes", "decimal"}


def files(ends):
    for folder, dirs, names in os.walk("crates"):
        dirs[:] = sorted(d for d in dirs if d != "out")
        for name in sorted(names):
            if name.endswith(ends):
                yield os.path.join(folder, name)


def read(path):
    with open(path, encoding="utf-8") as f:
        return f.read()


def declared():
    """Each name that a file of specs/ or proofs/ declares, with whether it is a lemma."""
    found = collections.OrderedDict()
    for path in files(".antt"):
        lemmas = "/proofs/" in path
        inside = None
        for line in read(path).splitlines():
            if line.lstrip().startswith(("--", "use ", "let ", "in ")):
                continue
            m = DECLARED.match(line)
            if m:
                inside = m.group(1)
                if m.group(1) != "module":
                    found.setdefault(m.group(2), False)
                continue
            m = SIGNATURE.match(line)
            if not m:
                continue
            if not m.group(1):
                inside = None
            kind, names, of = m.group(2), m.group(3).split(), m.group(4)
            if re.match(r"(goal|given)\.", of):
                continue
            field = inside in ("record", "data")
            data = "abbrev" in kind or "unfoldable" in kind or (field and not lemmas)
            for name in names:
                found[name] = found.get(name, True) and not data
    return found


def snake(name):
    return name.replace("-", "_")


def camel(name):
    return "".join(part[:1].upper() + part[1:] for part in name.split("-"))


def lemma(name, known):
    """Longest names that are known, joined by dashes; other words by underscores."""
    parts = name.split("-")
    out, i = [], 0
    while i < len(parts):
        for j in range(len(parts), i, -1):
            word = "_".join(parts[i:j])
            if word in known and not (j - i == len(parts)):
                out.append((word, True))
                i = j
                break
        else:
            out.append((parts[i], False))
            i += 1
    text = out[0][0]
    for (_, before), (word, now) in zip(out, out[1:]):
        text += ("-" if before and now else "_") + word
    return text


def sources(crate):
    """The names of Rust code in a crate that have an underscore."""
    found = set()
    for path in files(".rt"):
        if path.split(os.sep)[1] == crate:
            found |= {w for w in re.findall(r"[A-Za-z_]\w*", read(path)) if "_" in w.strip("_")}
    return found


def spelt(token, source):
    """A name of a goal or a step, with the parts that are source code spelt as there."""
    parts = token.split("-")
    out, i = [], 0
    while i < len(parts):
        for j in range(len(parts), i, -1):
            word = "_".join(parts[i:j])
            if j - i == 1 or word in source:
                out.append(word)
                i = j
                break
    return "-".join(out)


def renamings():
    names = declared()
    known = LIBRARY | {snake(n) for n, is_lemma in names.items() if not is_lemma}
    new = {}
    for name, is_lemma in names.items():
        if "-" not in name:
            continue
        if name[0].isupper():
            to = camel(name)
        elif is_lemma:
            to = lemma(name, known)
        else:
            to = snake(name)
        if to != name:
            new[name] = to
    return new


def turn(text, new, code):
    """The text with its names turned; in code, texts between quotation marks stay."""
    parts = re.split(r'(b?"(?:[^"\\\n]|\\.)*")', text) if code else [text]
    for k in range(0, len(parts), 2 if code else 1):
        parts[k] = TOKEN.sub(lambda m: new.get(m.group(0), m.group(0)), parts[k])
    return "".join(parts)


def main(argv):
    new = renamings()
    back = collections.defaultdict(list)
    for a, b in new.items():
        back[b].append(a)
    for b, a in sorted(back.items()):
        if len(a) > 1:
            print(f"fall together: {', '.join(a)} as {b}")
    used = collections.defaultdict(set)
    for path in files((".antt", ".rt")):
        for word in set(TOKEN.findall(read(path))):
            used[word].add(path)
    for a, b in sorted(new.items()):
        both = used[a] & used[b]
        if both:
            print(f"in use before: {a} as {b}: {' '.join(sorted(both))}")
    if argv == ["--list"]:
        for a, b in sorted(new.items()):
            print(f"{a} -> {b}")
        return 0
    for path in files((".antt", ".rt", ".edit")):
        text = read(path)
        turned = turn(text, new, True)
        if turned != text:
            with open(path, "w", encoding="utf-8") as f:
                f.write(turned)
    turned_steps = 0
    by_crate = {}
    for path in files(".antt"):
        if not re.search(r"/proofs/.*/(Answers|Invariants|Proof|Choices)\.antt$", path):
            continue
        crate = path.split(os.sep)[1]
        source = by_crate.setdefault(crate, sources(crate))
        text = read(path)
        brought = set(TOKEN.findall(" ".join(re.findall(r"^use .*$", text, re.M))))
        lines = []
        for line in text.splitlines(keepends=True):
            if not line.startswith(("use ", "--")):
                line = TOKEN.sub(lambda m: m.group(0) if m.group(0) in brought else spelt(m.group(0), source), line)
            lines.append(line)
        if "".join(lines) != text:
            turned_steps += 1
            with open(path, "w", encoding="utf-8") as f:
                f.write("".join(lines))
    print(f"{turned_steps} proofs with steps turned")
    pages = [os.path.join("docs", p) for p in sorted(os.listdir("docs"))] + ["README.md"]
    for path in pages:
        text = read(path)
        turned = re.sub(r"`[^`\n]+`", lambda m: turn(m.group(0), new, False), text)
        if turned != text:
            with open(path, "w", encoding="utf-8") as f:
                f.write(turned)
    print(f"{len(new)} names turned")
    return 0


if __name__ == "__main__":
    raise SystemExit(main(sys.argv[1:]))
