#!/usr/bin/env python3
"""Respells the repository's own definitions and lemmas: words in snake case, as `shapeOf` to `shape_of` and `low-fits` to `low_fits`.

usage: python3 tools/spellings.py   at the top of the repository, once, after the kit's port.py (docs/PORT.md names both commits)

What turns: names that the files of specs/ and proofs/ declare, in these files, in the clauses of src/, in must-fail edits and in code spans of the pages.
A definition and a lemma that would fall together: the definition gets the plain name and the lemma keeps its dash, which joins the names it is about.
Names that begin with a capital letter stay, and so do functions of src/, names in C and Rust, and modules.
"""

import collections
import glob
import re

WORD = r"[^\s(){}.;,@\"«»:\x60]+"
DECLARED = re.compile(rf"^ *(?:(?:abbrev|unfoldable|pub|record|data|mutual|opaque) +)*({WORD})(?: \{{[^{{}}\n]*\}}| \([^()\n]*\))* :(?: |$)")
NO_NAME = {"module", "use", "let", "λ", "where"}
# Names that the earlier script had given underscores before their definition got its own.
LEMMAS = {"part_length", "one_more", "one_byte", "no_length", "in_reach", "in_order", "same_answer", "same_code", "same_item", "same_sign", "same_whole"}
LEMMAS |= {"two_bytes", "put_count", "after_tag", "by_length", "high_end", "code_below"}


def snake(name):
    if name[0].isupper():
        return name
    return re.sub(r"(?<=[a-z0-9])[A-Z]", lambda m: "_" + m[0].lower(), name).replace("-", "_")


def files(*kinds):
    return sorted(f for kind in kinds for f in glob.glob(kind, recursive=True))


def declared():
    names = collections.defaultdict(set)
    for path in files("crates/*/specs/**/*.antt", "crates/*/proofs/**/*.antt"):
        for line in open(path, encoding="utf-8"):
            m = DECLARED.match(line)
            if m and m[1] not in NO_NAME and not line.startswith("--"):
                names[m[1]].add(path)
    return names


def table(names):
    met = collections.defaultdict(set)
    for name in names:
        met[snake(name)].add(name)
    turned = {}
    for new, olds in met.items():
        camel = [n for n in olds if re.search("[a-z0-9][A-Z]", n)]
        defined = camel or ([new] if new in olds and len(olds) > 1 else [])
        for old in olds:
            if not defined or old in defined:
                turned[old] = new
            elif old == new and old in LEMMAS:
                turned[old] = new.replace("_", "-")
            elif "-" in old:
                turned[old] = old
            else:
                turned[old] = new
    return {old: new for old, new in turned.items() if old != new}


TOKEN = re.compile(rf"(?<![^\s(){{}}.;,@\"«»:\x60])({WORD})(?![^\s(){{}}.;,@\"«»:\x60])")
SPAN = re.compile(r"\x60[^\x60\n]+\x60")


def words(text, turned):
    def one(m):
        before = text[max(0, m.start() - 5):m.start()]
        return m[0] if before.endswith(("goal.", "tie.")) else turned.get(m[0], m[0])
    return TOKEN.sub(one, text)


def antt(line, turned):
    """Code, and in a comment what is in a code span or cannot be a plain word."""
    at = line.find("--") if line.lstrip().startswith("--") else line.find(" -- ")
    if at < 0:
        return words(line, turned)
    camel = {old: new for old, new in turned.items() if re.search("[a-z0-9][A-Z]", old)}
    comment = SPAN.sub(lambda m: words(m[0], turned), line[at:])
    return words(line[:at], turned) + words(comment, camel)


def rust(line, turned):
    camel = {old: new for old, new in turned.items() if re.search("[a-z0-9][A-Z]", old)}
    line = SPAN.sub(lambda m: words(m[0], turned), line)
    line = re.sub(rf"(?<=\.)[a-z]{WORD}", lambda m: turned.get(m[0], m[0]) if "-" in m[0] else m[0], line)
    return words(line, camel)


def turn(path, one, turned):
    with open(path, encoding="utf-8") as f:
        text = f.read()
    new = "".join(one(line, turned) for line in text.splitlines(keepends=True))
    if new != text:
        with open(path, "w", encoding="utf-8") as f:
            f.write(new)


def main():
    names = declared()
    turned = table(names)
    for path in files("crates/*/specs/**/*.antt", "crates/*/proofs/**/*.antt"):
        turn(path, antt, turned)
    for path in files("crates/*/src/**/*.rt"):
        turn(path, rust, turned)
    for path in files("crates/*/must-fail/*.edit"):
        turn(path, lambda line, t: words(line, t) if line[:4] in ("old:", "new:") else line, turned)
    for path in files("*.md", "docs/**/*.md", "samples/*.md", "tests/*.md", "rust/*.md"):
        turn(path, lambda line, t: SPAN.sub(lambda m: words(m[0], t), line), turned)
    print(f"spellings: {len(turned)} names")


if __name__ == "__main__":
    main()
