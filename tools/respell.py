#!/usr/bin/env python3
"""Respells the repository's own names of specs/ and proofs/: words in snake case, types and facts in camel case.

    tools/respell.py          rewrites the .antt and .rt files of crates/, the pages of docs/ and the README in place
    tools/respell.py --list   prints the names, old and new, and those that fall together with another

Run it once, on files that have the spelling of today's library. A dash stays where it joins the names of two functions, as in
`fed-fed`, which is a lemma on `fed` of `fed`. Names of the library, of the goals that the check makes, and of src/ stay.
"""
import collections
import os
import re
import sys

ROOT = os.path.dirname(os.path.dirname(os.path.abspath(__file__)))
OWN = set(re.findall(r"^([a-z_]+):", open(os.path.join(ROOT, "crates.txt"), encoding="utf-8").read(), re.M))
TOKEN = re.compile(r"(?<![\w'\-·])(?:[A-Za-z][\w'₀-₉]*(?:-[\w'₀-₉]+)+)(?![\w'\-·])")
DEFINES = re.compile(r"^\s*(?:pub )?(?:(abbrev|unfoldable|record|data) )?(?:pub )?([A-Za-z][^\s:(){}\[\];,.=]*)(?: \{[^}]*\}| \([^)]*\))* :(.*)$")
# words of the library that lemmas are named after
LIBRARY = set("append take drop map length replicate nil zero suc add sub mul div mod pow xor reverse cond push or and not "
              "cons bytes_eq".split())


def files(*endings):
    for d, dirs, fs in os.walk(os.path.join(ROOT, "crates")):
        dirs[:] = sorted(x for x in dirs if x != "out")
        for f in sorted(fs):
            if f.endswith(endings):
                yield os.path.join(d, f)


def read(path):
    with open(path, encoding="utf-8") as f:
        return f.read()


def collect():
    """The repository's names: kind by name ('word', 'lemma', 'fact', 'field'), and the names that are the library's or the check's."""
    kinds, foreign = {}, set()
    for path in files(".antt"):
        text = read(path)
        for m in re.finditer(r"\buse\s+([\w.+·'-]+)\.\{([^}]*)\}", text):
            first = m.group(1).split(".")
            generated = first[-1] in ("Goals", "Given") or "declared" in first
            if first[0] == "Rattle" and first[1] in OWN and not generated:
                continue
            foreign |= {n.split(" as ")[0].strip() for n in m.group(2).split(",") if n.strip()}
        record = None
        for line in text.split("\n"):
            code = line.split("--")[0]
            deep = len(code) - len(code.lstrip())
            if code.strip() and record is not None and deep <= record:
                record = None
            m = DEFINES.match(code)
            if m:
                kind, name, rest = m.groups()
                if re.match(r"\s*goal\.", rest):
                    foreign.add(name)
                elif kind in ("record", "data"):
                    kinds[name], record = "fact", deep
                elif record is not None:
                    kinds[name] = "field"
                elif kind:
                    kinds[name] = "fact" if name[0].isupper() else "word"
                else:
                    kinds.setdefault(name, "lemma")
            # what is bound inside a definition
            for m in TOKEN.finditer(code):
                if code[max(0, m.start() - 1):m.start()] != "." and not code.startswith("use "):
                    kinds.setdefault(m.group(0), "lemma")
    for n in foreign & set(kinds):
        del kinds[n]
    return kinds, foreign


def respelled(name, kind, functions):
    parts = name.split("-")
    if kind == "fact":
        return "".join(p[:1].upper() + p[1:] for part in parts for p in part.split("_"))
    if kind == "lemma" and all(p.replace("-", "_") in functions for p in parts):
        return name
    return "_".join(parts)


def renaming():
    kinds, foreign = collect()
    functions = LIBRARY | {n for n, k in kinds.items() if k == "word" and "-" not in n}
    code = {n for path in files(".rt") for n in re.findall(r"\bfn (\w+)", read(path))}
    new = {n: respelled(n, k, functions) for n, k in kinds.items() if "-" in n}
    new = {a: b + "_lem" if kinds[a] == "lemma" and b in code else b for a, b in new.items()}
    return {a: b for a, b in new.items() if a != b}, kinds


def together(names, kinds):
    """New names that stand in the repository already."""
    seen = collections.defaultdict(set)
    for path in files(".antt", ".rt"):
        for t in set(re.findall(r"[A-Za-z][\w']*", read(path))):
            seen[t].add(os.path.relpath(path, ROOT))
    back = collections.defaultdict(list)
    for a, b in names.items():
        back[b].append(a)
    for b, olds in sorted(back.items()):
        if len(olds) > 1 or b in kinds or b in seen:
            yield b, olds, sorted(seen.get(b, ()))


def rewrite(text, names):
    def new(m):
        # what follows `c.`, `w.` or the like at once is a name of the check
        before = re.search(r"[\w'.-]*$", text[max(0, m.start() - 200):m.start()]).group(0)
        if before in ("c.", "w.", "l.", "g.", "goal.") or re.fullmatch(r"c\.[\w'-]+\.new\.", before):
            return m.group(0)
        return names.get(m.group(0), m.group(0))

    return TOKEN.sub(new, text)


def plain_imports(text, comment):
    """Words that a file imports under a name of its own: no dash in it, and none of the library's words for another."""
    again = {a: a.replace("-", "_") for a in re.findall(r" as ([a-z]+(?:-[a-z]+)+)", text)}
    if "AllByRecursion as All" in text:
        text = text.replace("AllByRecursion as All", "AllByRecursion")
        again["All"] = "AllByRecursion"
    if not again:
        return text
    word = re.compile(r"(?<![\w.'-])(" + "|".join(sorted(again, key=len, reverse=True)) + r")(?![\w'-])")
    lines = []
    for line in text.split("\n"):
        code, mark, rest = line.partition(comment)
        lines.append(word.sub(lambda m: again[m.group(1)], code) + mark + rest)
    return "\n".join(lines)


def outside_strings(text, names):
    pieces = re.split(r'("(?:[^"\\\n]|\\.)*")', text)
    return "".join(p if i % 2 else rewrite(p, names) for i, p in enumerate(pieces))


def main():
    names, kinds = renaming()
    if "--list" in sys.argv:
        for a, b in sorted(names.items()):
            print(f"{kinds[a]:6} {a} {b}")
        print()
        for b, olds, where in together(names, kinds):
            print(f"together: {b} ({', '.join(olds)}): {' '.join(where[:6])}")
        return
    for path in list(files(".antt")) + list(files(".rt")):
        old = read(path)
        code = path.endswith(".rt")
        new = plain_imports(outside_strings(old, names) if code else rewrite(old, names), "//" if code else "--")
        if new != old:
            with open(path, "w", encoding="utf-8") as f:
                f.write(new)
    pages = [os.path.join(ROOT, "README.md")]
    for d, _, fs in os.walk(os.path.join(ROOT, "docs")):
        pages += [os.path.join(d, f) for f in fs if f.endswith(".md")]
    for path in pages:
        old = read(path)
        new = re.sub(r"`[^`\n]+`", lambda m: rewrite(m.group(0), names), old)
        if new != old:
            with open(path, "w", encoding="utf-8") as f:
                f.write(new)


main()
