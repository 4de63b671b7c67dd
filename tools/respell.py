#!/usr/bin/env python3
"""Respells the repository's own definitions and lemmas in snake case, as today's Rattle spells its own.

usage: python3 tools/respell.py     at the top of the repository, once, right after the toolchain's port.py

    not-below, After-loop, over-lower  ->  not_below, After_loop, over_lower

A name is taken if a file of specs/, or one of proofs/ that holds lemmas, declares it: a definition, a lemma, a record, a data type, a
constructor, a field or an argument of one. What Rattle makes for a function (goals, steps, labels) keeps its spelling, and so do functions,
exported C names and strings. In comments only a name in backquotes is turned. It prints names that fall together, and then writes nothing.
"""

import collections
import glob
import re
import sys

WORD = re.compile(r"[^\s(){}\[\],;.:\"`⟨⟩]+")
OWN = {"base", "floats", "regions", "counts", "curves", "mesh", "juplatsk", "bench_table", "replay"}
HEAD = re.compile(r"^\s*(?:abbrev |unfoldable |pub |record |data )*((?:[^\s(){}\[\],;.:]+ )*[^\s(){}\[\],;.:]+)\s*[:({]")
# another name, where the library has the one that snake case would give
APART = {"is-nan": "nan_alone"}
BINDER = re.compile(r"[({]((?:[^\s(){}\[\],;.:]+ )+):")


def snake(name):
    return APART.get(name, name.replace("-", "_"))


def read(path):
    with open(path, encoding="utf-8") as it:
        return it.read()


def is_walk(path):
    return path.endswith("/Proof.antt")


def declared(files):
    """The hyphened names that the files declare, and those among them that are fields of a record."""
    names, fields = collections.defaultdict(set), set()
    for path in files:
        if is_walk(path):
            continue
        for line in read(path).splitlines():
            code = line.split("//" if path.endswith(".rt") else "--")[0]
            for name in re.findall(r"(?: as|let) ([^\s,;}]+-[^\s,;}]+)", code if path.endswith(".rt") or code.startswith(("use ", " ")) and " as " in code else ""):
                names[name].add(path)
            if path.endswith(".rt") or code.startswith("use "):
                continue
            found = HEAD.match(code)
            for some in ([found.group(1)] if found else []) + BINDER.findall(code):
                for name in some.split():
                    if "-" in name[1:-1] and re.match(r"[^\W\d]", name):
                        names[name].add(path)
                        if code.startswith(" "):
                            fields.add(name)
    return names, fields


def imported(text):
    """The hyphened names that a file takes from a library."""
    from_library = set()
    for path, names in re.findall(r"(?m)^(?:ghost )?use ([^\s{;]+?)\.?\{([^}]*)\}", text):
        own = path.startswith("Rattle.") and path.split(".")[1] in OWN
        if not own:
            from_library |= {it for it in re.split(r"[,\s]+", names) if "-" in it}
    return from_library


def turned(text, names, fields, walk, clause=False):
    keep = imported(text)

    def word(found, whole):
        name = found.group(0)
        if name not in names or name in keep:
            return name
        before = whole[: found.start()]
        if before.endswith(".") and not before.endswith(" .") and walk and name not in fields:
            return name
        return snake(name)

    def line(whole):
        code, dashes, comment = whole, "", ""
        at = whole.find("//" if clause else "--")
        if at >= 0:
            code, comment = whole[:at], whole[at:]
        parts = re.split(r'("(?:[^"\\]|\\.)*")', code)
        code = "".join(it if it.startswith('"') else WORD.sub(lambda q: word(q, it), it) for it in parts)
        comment = re.sub(r"`[^`]*`", lambda q: WORD.sub(lambda it: word(it, q.group(0)), q.group(0)), comment)
        return code + dashes + comment

    return "\n".join(line(it) for it in text.split("\n"))


def main():
    antt = sorted(glob.glob("crates/*/specs/**/*.antt", recursive=True) + glob.glob("crates/*/proofs/**/*.antt", recursive=True))
    code = sorted(glob.glob("crates/*/src/**/*.rt", recursive=True))
    names, fields = declared(antt + code)
    tokens = {it for path in antt if not is_walk(path) for line in read(path).splitlines() for it in WORD.findall(line.split("--")[0])}
    together = sorted(it for it in names if snake(it) in tokens)
    if together:
        print("fall together with a name that is there:", ", ".join(together))
    twice = collections.Counter(snake(it) for it in names)
    if any(n > 1 for n in twice.values()):
        print("fall together:", [it for it in twice if twice[it] > 1])
        return 1
    for path in antt + code:
        text = read(path)
        new = turned(text, names, fields, is_walk(path), clause=path.endswith(".rt"))
        if is_walk(path):
            # the theorem of the function whose folder this is
            of = path.split("/")[-2]
            new = re.sub(r"(?<![\w-])" + re.escape(of.replace("_", "-")) + r"-spec(?![\w-])", of + "_spec", new)
        if new != text:
            with open(path, "w", encoding="utf-8") as it:
                it.write(new)
    print(len(names), "names respelled")
    return 0


if __name__ == "__main__":
    sys.exit(main())
