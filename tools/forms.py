"""Lists the places in src/ that docs/DESIGN-PASS.md counts: python3 tools/forms.py [FOLDER]

FOLDER is a checkout (this one where none is given). A row is a place to look at, point by point; the page says what became of each.
"""
import collections
import glob
import re
import sys

root = sys.argv[1] if len(sys.argv) > 1 else "."
files = {
    f[len(root) + 1 :]: open(f, encoding="utf-8").read().split("\n")
    for f in sorted(glob.glob(root + "/crates/*/src/**/*.rt", recursive=True))
    if "_tests/" not in f
}


def lines_with(pattern):
    return [f"{f}:{n + 1}: {t.strip()}" for f, ls in files.items() for n, t in enumerate(ls) if re.search(pattern, t) and not t.strip().startswith("//")]


def block(lines, start):
    """The lines of the block that opens at a line, by its indentation."""
    depth = len(lines[start]) - len(lines[start].lstrip())
    out = []
    for t in lines[start + 1 :]:
        if t.strip() and len(t) - len(t.lstrip()) <= depth:
            break
        out.append(t)
    return out


def index_loops():
    """Loops over a range whose number is used as an index in brackets, and every `while` and `loop`."""
    found = []
    for f, ls in files.items():
        for n, t in enumerate(ls):
            m = re.search(r"\bfor (\w+) in .*\.\.", t)
            if m and any(re.search(r"\[[^\]]*\b" + m.group(1) + r"\b[^\]]*\]", b) for b in block(ls, n)):
                found.append(f"{f}:{n + 1}: {t.strip()}")
            if re.search(r"\bwhile\b|\bloop \{", t) and not t.strip().startswith("//"):
                found.append(f"{f}:{n + 1}: {t.strip()}")
    return found


def taken_apart():
    """A `match` on an Option or a Result, and a `let .. else` that turns one into an Err."""
    found = []
    for f, ls in files.items():
        for n, t in enumerate(ls):
            if re.search(r"\bmatch\b.*\{$", t) and any(re.match(r"\s*(Ok|Err|Some|None)\b.*=>", b) for b in block(ls, n)[:4]):
                found.append(f"{f}:{n + 1}: {t.strip()}")
            if re.search(r"let (Ok|Some)\(.*else \{$", t) and any("Err(" in b for b in block(ls, n)):
                found.append(f"{f}:{n + 1}: {t.strip()}")
    return found


def signatures():
    text = "\n".join(t for ls in files.values() for t in ls)
    for m in re.finditer(r"\bfn (\w+)(?:<[^({]*>)?\(([^)]*)\)", text):
        yield m.group(1), [re.sub(r":.*", "", p).strip() for p in m.group(2).split(",") if ":" in p]


def pairs():
    """Two parameters that stand in the same order in eight functions or more."""
    c = collections.Counter()
    for _, names in signatures():
        c.update((a, b) for i, a in enumerate(names) for b in names[i + 1 :])
    return [f"{n} functions: {a}, {b}" for (a, b), n in c.most_common() if n >= 8]


def facts():
    """A fact that stands in the `requires` of three functions or more."""
    c = collections.Counter()
    for ls in files.values():
        for t in ls:
            m = re.match(r"\s*requires (?:\w+ )?\{ (.*) \}$", t)
            if m:
                c[re.sub(r"\b(words|space)\.\w+(\.\w+)*", "W", re.sub(r"\.(now|old)\b", "", m.group(1)))] += 1
    return [f"{n} contracts: {k}" for k, n in c.most_common() if n >= 3]


def functions():
    """Each function with its signature and body as tokens, without its clauses and comments."""
    for f, ls in files.items():
        for n, t in enumerate(ls):
            m = re.match(r"\s*(?:pub(?:\(crate\))? )?fn (\w+)", t)
            if not m:
                continue
            depth = len(t) - len(t.lstrip())
            end = next((k for k in range(n, len(ls)) if ls[k] == " " * depth + "}"), None)
            if end is None:
                continue
            text = [x for x in ls[n : end + 1] if not re.match(r"\s*(ensures|requires|//)", x)]
            yield f"{f}:{n + 1}: {m.group(1)}", re.findall(r"\w+|[^\w\s]", " ".join(text))


def twins():
    """Two functions whose tokens differ only in at most four names or numbers, each turned always into the same other."""
    found = []
    fns = [(name, ts) for name, ts in functions() if len(ts) >= 24]
    for i, (a, x) in enumerate(fns):
        for b, y in fns[i + 1 :]:
            if len(x) != len(y):
                continue
            turned = {(u, v) for u, v in zip(x, y) if u != v}
            if len(turned) <= 4 and all(re.match(r"\w", u) and re.match(r"\w", v) for u, v in turned):
                if len({u for u, _ in turned}) == len(turned):
                    found.append(f"{a} ~ {b}: " + ", ".join(f"{u} for {v}" for u, v in sorted(turned)))
    return found


POINTS = [
    ("1 enums", lines_with(r"^\s*(pub(\(crate\))? )?enum ")),
    ("1 a Result or an Option inside a Result", lines_with(r"Result<Result<|-> Result<Option<|Option<Result<")),
    ("1 an Option or a Result taken apart by hand", taken_apart()),
    ("1 numbers for kinds", lines_with(r"^\s*\w+::\w+(\(_\))? => \d+,")),
    ("2 functions that differ in a few names", twins()),
    ("3 loops by an index", index_loops()),
    ("4 bytes and numbers turned by hand", lines_with(r"% 25[67]\b|/ 256\b|256 \*|\b(as u8|as u16)\b")),
    ("4 text made by hand", lines_with(r"format!|push_str")),
    ("5 a fact in three contracts or more", facts()),
    ("5 parameters that travel together", pairs()),
    ("6 a buffer or an array in a struct", lines_with(r"^\s*(pub(\(crate\))? )?\w+: (\[\w+; \w+\]|Vec<\w+>),|^\s*(pub(\(crate\))? )?len: usize")),
    ("7 a switch on which step to run", lines_with(r"\bmatch (\(?)(selection|call|kind|command|seat_of\(.*\)|&mut self\.inner|word)\b|\bdyn\b|: fn\(")),
]
for name, rows in POINTS:
    print(f"{name}: {len(rows)}")
    for row in rows:
        print("  " + row)
