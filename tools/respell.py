#!/usr/bin/env python3
"""Brings this repository's own definitions and lemmas to today's spelling: words in snake case, a prime as an apostrophe.

usage: python3 tools/respell.py            at the top, once, right after the toolchain's own script

A name that a file of specs/ or proofs/ defines, and that is in lower camel case or has a dash between words, is turned everywhere in
specs/, proofs/ and the ghost parts of src/. Names that Rattle makes (goals, steps, loops) keep their dashes: they are no names of ours.
Two of our names that would fall together are told apart by EXTRA. Functions of src/, strings, comments, inputs and outputs stay.
Where a file of src/ has a function of the name that a definition gets, its import gives the definition the name `NAME_spec` there.
"""
import collections
import os
import re

# A lemma that would get its definition's name.
EXTRA = {
    "at-end": "at_end_lem",
    "edge-from": "edge_from_lem",
    "free-before": "free_before_lem",
    "one_on": "one_on_lem",
    "read-on": "read_on_lem",
    "wide_by": "wide_by_lem",
}
DEFINED = re.compile(
    r"^\s*(?:abbrev |unfoldable )*(?:pub )?(?:abbrev |unfoldable )*(?:record |data |ruleset )?"
    r"([^\s:(){}.;,λ→=]+)\s*(?:[({].*)?:(?!=)\s*(.*)$"
)
MADE = ("goal.", "need.", "rules.")
WORD = re.compile(r"[^\s(){}.;,λ:]+")


def files(endings):
    for top, dirs, names in os.walk("crates"):
        dirs[:] = sorted(d for d in dirs if d not in ("out", "must-fail"))
        for name in sorted(names):
            if name.endswith(endings):
                yield os.path.join(top, name)


def read(path):
    with open(path, encoding="utf-8") as f:
        return f.read()


def snake(name):
    name = name.replace("\u2032", "'").replace("-", "_")
    return re.sub(r"(?<=[a-z0-9])(?=[A-Z])", "_", name).lower()


def renaming():
    found = set()
    for path in files(".antt"):
        for line in read(path).splitlines():
            m = DEFINED.match(line)
            if m and not line.lstrip().startswith("--") and not line.startswith("use") and not m.group(2).startswith(MADE):
                found.add(m.group(1))
    turned = {n: snake(n) for n in found if not n[0].isupper() and re.search(r"[a-z0-9]-[a-z0-9]|[a-z][A-Z]|\u2032", n)}
    turned.update({n: to for n, to in EXTRA.items() if n in found})
    for to, names in group(turned, found).items():
        if len(names) > 1:
            raise SystemExit(f"{sorted(names)} would all be {to}")
    return turned


def group(turned, found):
    by = collections.defaultdict(set)
    for name in found:
        by[turned.get(name, name)].add(name)
    return {to: names for to, names in by.items() if any(n in turned for n in names)}


def turn_line(line, turned):
    """A line of antt, its comment left alone. A name after `c.`, `l.`, `w.` or `goal.` is one that Rattle makes."""
    code, dash, comment = line.partition("--") if re.search(r"(^|\s)--(\s|$)", line) else (line, "", "")

    def word(m):
        w = m.group(0)
        before = code[: m.start()]
        if re.search(r"(^|[^\w'])(c|l|w|goal|need)\.$", before):
            return w
        return turned.get(w, w)

    return WORD.sub(word, code) + dash + comment



def turn_antt(text, turned):
    out = []
    for line in text.split("\n"):
        parts = re.split(r'("(?:[^"\\]|\\.)*")', line)
        if len(parts) == 1:
            out.append(turn_line(line, turned))
        else:
            out.append("".join(p if i % 2 else turn_line(p, turned) for i, p in enumerate(parts)))
    return "\n".join(out)


def turn_rt(text, turned):
    """Names in Rust code have neither dashes nor lower camel case, so only ghost text has a name of ours."""
    functions = set(re.findall(r"\bfn (\w+)", text))
    turned = dict(turned)
    aliased = {n for n in turned if turned[n] in functions}
    out = []
    for line in text.split("\n"):
        if line.lstrip().startswith("//"):
            out.append(line)
        elif line.lstrip().startswith("ghost use"):
            out.append(re.sub(r"[\w'-]+", lambda m: turned[m.group(0)] + (f" as {turned[m.group(0)]}_spec" if m.group(0) in aliased else "") if m.group(0) in turned else m.group(0), line))
        else:
            local = {n: to + ("_spec" if n in aliased else "") for n, to in turned.items()}
            out.append(turn_antt(line, local))
    return "\n".join(out)


def turn_aliases(text):
    """The names that a file's own imports give, as `first as firstTo`."""
    for name in sorted(set(re.findall(r"\bas ([a-z][a-z0-9]*[A-Z]\w*)", text))):
        to = snake(name)
        if re.search(rf"\b{to}\b", text):
            to += "_spec"
        text = re.sub(rf"\b{name}\b", to, text)
    return text


def main():
    turned = renaming()
    for path in files((".antt", ".rt")):
        text = read(path)
        new = turn_aliases(turn_antt(text, turned) if path.endswith(".antt") else turn_rt(text, turned))
        if new != text:
            with open(path, "w", encoding="utf-8") as f:
                f.write(new)
    for name in sorted(turned):
        print(f"{name} -> {turned[name]}")


if __name__ == "__main__":
    main()
