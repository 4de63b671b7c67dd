#!/usr/bin/env python3
"""Counts the places in crates/*/src that docs/DESIGN-PASS.md speaks of.

    python3 tools/places.py            the working tree
    python3 tools/places.py COMMIT     a commit
    python3 tools/places.py -l [..]    with every place on a line

What each count looks for stands at its function below. It goes by the text of the source, so it finds candidates; the page says of each what
became of it. A line that begins '// stays:' above or at the end of a place is its reason, and counts the place as kept.
"""
import re
import subprocess
import sys
from collections import defaultdict


def sources(commit):
    run = lambda *a: subprocess.run(["git", *a], capture_output=True, text=True, check=True).stdout
    if commit:
        names = [n for n in run("ls-tree", "-r", "--name-only", commit, "crates").split() if re.match(r"crates/\w+/src/.*\.rt$", n)]
        return {n: run("show", f"{commit}:{n}") for n in names}
    names = [n for n in run("ls-files", "-co", "--exclude-standard", "crates").split() if re.match(r"crates/\w+/src/.*\.rt$", n)]
    return {n: open(n).read() for n in names}


class Function:
    """A function as it stands: its name, its parameters, its clauses and its body."""

    def __init__(self, file, line, text):
        self.file, self.line, self.text = file, line, text
        self.name = re.search(r"\bfn (\w+)", text).group(1)
        depth, start = 0, text.index("(", text.index("fn "))
        for i in range(start, len(text)):
            depth += {"(": 1, ")": -1}.get(text[i], 0)
            if depth == 0:
                break
        inside = text[start + 1 : i]
        self.params = [p.strip() for p in re.split(r",(?![^<(\[]*[>)\]])", inside) if p.strip()]
        body = re.search(r"(?m)(^\s*\{\n|\{\n)", text[i:])
        at = i + (body.start() if body else 0)
        self.clauses, self.body = text[i + 1 : at], text[at:]

    def place(self):
        return f"{self.file.replace('crates/', '').replace('src/', '')}:{self.line} {self.name}"


def functions(files):
    for file, text in files.items():
        lines = text.split("\n")
        i = 0
        while i < len(lines):
            m = re.match(r"(\s*)(pub(\(crate\))? )?(const )?(extern \"C\" )?fn \w+", lines[i])
            if not m:
                i += 1
                continue
            end = next(j for j in range(i, len(lines)) if lines[j] == m.group(1) + "}" or (j == i and lines[j].endswith("}")))
            yield Function(file, i + 1, "\n".join(lines[i : end + 1]))
            i = end + 1


def stays(files, place):
    """Whether the place has its reason beside it: on its line, on one of the two above it, or, of a function, above it or within it."""
    file, line = place
    lines = files[file].split("\n")
    return any("// stays:" in l for l in lines[max(0, line - 4) : line + 1])


def found(files, pattern):
    for file, text in files.items():
        for n, line in enumerate(text.split("\n"), 1):
            code = line.split("//")[0]
            if re.search(pattern, code):
                yield (file, n), line.strip()


def point1(files, funs):
    """Enums of the program's own; constants that stand for none; functions that return 0 somewhere, which may stand for none; numbers and flags
    for a kind, and flags with a value beside them (by their names, below)."""
    yield from found(files, r"^\s*(pub(\(crate\))? )?enum [A-Z]")
    yield from found(files, r"\bconst NO_[A-Z]+\b")
    for f in funs:
        if re.search(r"-> (u32|u64|usize|f64)\b", f.text.split("{")[0]) and re.search(r"return 0;", f.body):
            yield (f.file, f.line), f"fn {f.name}: 0 for none"
        if any(re.match(r"(operation|stated|moved|more): (usize|u32|bool)", p) for p in f.params):
            yield (f.file, f.line), f"fn {f.name}: a number or a flag for a kind"
    yield from found(files, r"^\s*(pub )?(more: bool|moved: bool|known: &mut \[bool; \w+\]|winner: usize),$")


def point2(files, funs):
    """Functions whose text is the same but for names, numbers and types; each of a group counts."""
    groups = defaultdict(list)
    for f in funs:
        text = re.sub(r"//.*", "", f.text)
        text = re.sub(r"(?s)\n\s*(requires|ensures)\b.*?(?=\n\s*\{\n)", "", text)
        words = re.findall(r"'?\w+|[^\s\w]", text)
        names, skeleton = {}, []
        for w in words:
            if re.match(r"\d", w):
                skeleton.append("0")
            elif re.match(r"(u8|u16|u32|u64|usize|f64|bool)$", w):
                skeleton.append("T")
            elif re.match(r"[A-Z]\w*$", w):
                skeleton.append("C")
            elif re.match(r"[a-z_]\w*$", w) and w not in ("fn", "let", "mut", "if", "else", "while", "for", "in", "return", "match", "as", "pub", "crate", "extern"):
                skeleton.append(names.setdefault(w, f"v{len(names)}"))
            else:
                skeleton.append(w)
        while skeleton and skeleton[0] in ("pub", "(", "crate", ")"):
            skeleton.pop(0)
        if len(skeleton) >= 30:
            groups[" ".join(skeleton)].append(f)
    for g in groups.values():
        if len(g) > 1:
            for f in g:
                yield (f.file, f.line), f"fn {f.name} as " + ", ".join(o.name for o in g if o is not f)


def point3(files, funs):
    """`while` and `loop`."""
    yield from found(files, r"^\s*('\w+: )?(while|loop)\b")


def point4(files, funs):
    """Casts for which there is a `From` (to f64, and of an element of a table), bit patterns of NaN and infinity, tests of a NaN by `!=`, functions
    that convert (by their names, below), and tests that end `if .. { return true; } false` or the like. Other casts are no places: of a u32 to
    usize, of usize to a number of a place, there is no `From`, and the check proves that they lose nothing."""
    yield from found(files, r"\bas f64\b|\] as (u32|u64|usize)\b")
    yield from found(files, r"\b(\w+) != \1\b|0\.0 / 0\.0|from_bits\(0x7ff0")
    for f in funs:
        if "-> bool" in f.text and re.search(r"(?s)if [^{]*\{\s*(return [^;]*;|\S+)\s*\}\s*\S+\s*\}$", f.body) and not re.search(r"\b(for|while|match)\b", f.body):
            yield (f.file, f.line), f"fn {f.name}: a test by return"
        if re.match(r"(verdict_of|\w+_result|wide\w*|double|flag)$", f.name):
            yield (f.file, f.line), f"fn {f.name}: a conversion"


def point5(files, funs):
    """Functions with eight parameters or more, and facts that three or more contracts require."""
    facts = defaultdict(list)
    for f in funs:
        if len(f.params) >= 8:
            yield (f.file, f.line), f"fn {f.name}: {len(f.params)} parameters"
        for clause in re.findall(r"requires (?:\w+ )?\{(.*?)\}\n", f.clauses, re.S):
            facts[(f.file.split("/")[1], " ".join(clause.split()))].append(f)
    for (crate, clause), fs in facts.items():
        if len(fs) >= 3:
            for f in fs:
                yield (f.file, f.line), f"fn {f.name} requires {clause}"


def point6(files, funs):
    """Steps over records that lie in a flat list of numbers (a product with .._SIZE, 2 * k, 3 * k), and functions that are lent two or more arrays."""
    yield from found(files, r"_SIZE \*|\* [A-Z]*_SIZE|\b[238] \* \(?\w+|\+= ([A-Z]+_SIZE|[2348]);")
    for f in funs:
        if sum(1 for p in f.params if re.search(r"\[\w+; [A-Z_]+\]", p)) >= 2:
            yield (f.file, f.line), f"fn {f.name}: parallel arrays"


def point7(files, funs):
    """A `match` or an `if` on a number or an enum that says which step to run."""
    yield from found(files, r"match (operation|layout|self\.layout)\b")


POINTS = [point1, point2, point3, point4, point5, point6, point7]


def main(args):
    listed = "-l" in args
    args = [a for a in args if a != "-l"]
    files = sources(args[0] if args else None)
    funs = list(functions(files))
    print(f"{len(files)} files, {len(funs)} functions")
    for n, point in enumerate(POINTS, 1):
        places = sorted(set(point(files, funs)))
        crates = defaultdict(int)
        for (file, _), _ in places:
            crates[file.split("/")[1]] += 1
        kept = [p for p in places if stays(files, p[0])]
        print(f"point {n}: {len(places)} ({', '.join(f'{c} {k}' for c, k in sorted(crates.items()))}), {len(kept)} with a reason beside them")
        if listed:
            for (file, line), what in places:
                mark = "stays" if stays(files, (file, line)) else ""
                print(f"    {file.replace('crates/', '')}:{line}: {what} {mark}".rstrip())


main(sys.argv[1:])
