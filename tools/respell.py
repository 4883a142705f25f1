#!/usr/bin/env python3
"""Spells the repository's own definitions and lemmas as today's Rattle does: words in snake case, types in camel case, a prime as an apostrophe.

usage: python3 tools/respell.py        at the top of the repository; files are rewritten in place

A name is one that a file of specs/ or a file right in proofs/ declares (definitions, lemmas, constructors, fields). `all-codes` becomes
`all_codes`, `Only-one` becomes `OnlyOne`, and a word in small letters whose own type ends in `Type 0` becomes a type's name in camel case.
Names that Rattle makes (goals, steps) are declared in neither, and keep their dashes. Comments are left alone. Variables of lemmas are
listed below (LOCAL). In clauses a bound's ghost member is spelled by its parameter alone, as `F.arith`.
"""
import collections
import os
import re
import sys

TOKEN = re.compile(r"[^\s(){}\[\];,.:«»\"λ◌⌜⌝`]+")
DECLARED = re.compile(r"^[ \t]*(?:(?:pub|abbrev|unfoldable|data|record|ruleset)[ \t]+)*([^\s(){}\[\];,.:«»\"λ◌]+)(?:[ \t]+[({][^\n]*?)?[ \t]*:[ \t\n]", re.M)

LOCAL = """a-is all-drawn b-is back-plane changed-since codes-before column-of counts-x counts-y d-is d-zero ends-x ends-y few-x few-y first-is
got-all got-it held-y helper-is helps-plane is-x' lent-x lent-y no-error no-help not-all prime-power rest-is row-good same-stands same-words
solves-of solves-y stands-in stays-x stays-y was-a was-b w-is y-is z-is""".split()
MEMBER = re.compile(r"\b([A-Z])\.(?:Rack|Field)\.(model|kept|keeping|arith|lawful)\b")
BARE = re.compile(r"(?<![.\w])(model|kept) (rack\.(?:old|new|now))")


def files(kinds):
    for crate in sorted(os.listdir("crates")):
        for kind in kinds:
            for folder, dirs, names in os.walk(os.path.join("crates", crate, kind)):
                dirs[:] = sorted(d for d in dirs if d != "out")
                for n in sorted(names):
                    if n.endswith((".antt", ".rt")):
                        yield os.path.join(folder, n), kind


def own(path, kind):
    """Whether a file declares names of the repository's own: a file of specs/, or one right in proofs/."""
    return kind == "specs" or (kind == "proofs" and os.path.basename(os.path.dirname(path)) == "proofs")


def without_comments(line, mark):
    at = line.find(mark)
    while at > 0 and not line[at - 1].isspace():
        at = line.find(mark, at + 1)
    return (line, "") if at < 0 else (line[:at], line[at:])


def camel(name):
    return "".join(w[:1].upper() + w[1:] for w in re.split("[-_]", name))


def declared():
    """The names, each with whether it is a type's."""
    found = {}
    for path, kind in files(["specs", "proofs"]):
        if not own(path, kind):
            continue
        with open(path, encoding="utf-8") as f:
            text = "".join(without_comments(l, "--")[0].rstrip("\n") + "\n" for l in f)
        for m in DECLARED.finditer(text):
            name = m[1]
            if not ("-" in name or "′" in name) or not re.match(r"[A-Za-z]", name):
                continue
            rest = text[m.end() :]
            end = re.search(r"\n(?=\S)|\n[ \t]*(?:abbrev|pub|record|unfoldable|data)\b|\n[ \t]*" + re.escape(name) + r"\b", rest)
            sign = rest[: end.start() if end else None]
            found[name] = found.get(name, False) or bool(re.search(r"Type 0\s*(?:where)?\s*$", sign.strip()))
    return found


def spelled(name, is_type):
    name = name.replace("′", "'")
    if name[:1].isupper() or is_type:
        return camel(name)
    return name.replace("-", "_")


def main():
    found = declared()
    new = {n: spelled(n, t) for n, t in found.items()}
    by_new = collections.defaultdict(set)
    for a, b in new.items():
        by_new[b].add(a)
    local = {n: n.replace("-", "_") for n in LOCAL}
    clash = {b: a for b, a in by_new.items() if len(a) > 1}
    if clash:
        sys.exit(f"names that fall together: {clash}")
    used = set()
    for path, kind in files(["specs", "proofs", "src"]):
        with open(path, encoding="utf-8") as f:
            used |= set(TOKEN.findall(f.read()))
    for b in sorted(set(new.values()) & used):
        print(f"look: {b} is a name already")
    changed = 0
    for path, kind in files(["specs", "proofs", "src"]):
        mark = "//" if path.endswith(".rt") else "--"
        with open(path, encoding="utf-8") as f:
            before = f.read()
        out = []
        for line in before.splitlines(keepends=True):
            code, comment = without_comments(line, mark)

            def turn(m):
                word = m[0]
                if word not in new:
                    return local.get(word, word) if kind == "src" or own(path, kind) else word
                # a step or a fact that Rattle names, as c.draw-after, is no name of ours
                start = m.start()
                if start and code[start - 1] == "." and re.search(r"(?:^|[^\w'-])(?:c|w|l|goal|v)(?:\.[^\s(){}\[\];,:]+)*\.$", code[:start]) and kind == "proofs" and not own(path, kind):
                    said.add(f"kept: {code[:start].split()[-1]}{word} in {path}")
                    return word
                return new[word]

            code = TOKEN.sub(turn, code)
            if kind == "src":
                code = BARE.sub(r"R.\1 \2", MEMBER.sub(r"\1.\2", code))
            out.append(code + comment)
        after = "".join(out)
        if after != before:
            with open(path, "w", encoding="utf-8") as f:
                f.write(after)
            changed += 1
    for s in sorted(said):
        print(s)
    print(f"{len(new)} names, {changed} files")


said = set()
main()
