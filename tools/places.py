"""Candidates for a rewriting, by point, in src/ of every crate: python3 tools/places.py [POINT ..]

It finds places to look at, and decides nothing: docs/DESIGN-PASS.md says which of them are places of the point.
Point 2 wants the program `duplicates` on the path.
"""

import collections
import pathlib
import re
import shutil
import subprocess
import sys
import tempfile

FILES = sorted(
    path
    for path in pathlib.Path("crates").rglob("*.rt")
    if path.parts[2] == "src"
)


def lines_that(pattern):
    """Prints each line of src/ that fits a pattern."""
    count = 0
    for path in FILES:
        for number, line in enumerate(path.read_text().splitlines(), 1):
            if re.search(pattern, line):
                count += 1
                print(f"  {path}:{number}: {line.strip()}")
    print(f"  = {count}")


def functions(path):
    """The name, parameters and clauses of each function of a file."""
    text = path.read_text()
    for found in re.finditer(r"fn (\w+)[^(]*\(([^{;]*?)\)(?: -> [^\n{;]*)?((?:\n\s+(?:requires|ensures)[^\n]*)*)", text):
        name, parameters, clauses = found.groups()
        facts = re.findall(r"(?:requires|ensures)[^{]*\{ (.*) \}", clauses)
        names = re.findall(r"(\w+): ", parameters)
        yield name, names, facts


def repeated():
    """Prints facts and pairs of parameters that stand in three functions of a crate or more."""
    for crate in sorted({path.parts[1] for path in FILES}):
        facts, pairs = collections.Counter(), collections.Counter()
        for path in FILES:
            if path.parts[1] != crate:
                continue
            for _, names, clauses in functions(path):
                facts.update(set(clauses))
                for i, first in enumerate(names):
                    pairs.update((first, second) for second in names[i + 1 :])
        for fact, count in facts.items():
            if count >= 3:
                print(f"  {crate}: {count} times: {fact}")
        for pair, count in pairs.items():
            if count >= 3:
                print(f"  {crate}: {count} times together: {', '.join(pair)}")


def twins():
    """Prints pairs of places that are the same but for names and numbers."""
    with tempfile.TemporaryDirectory() as folder:
        for path in FILES:
            copy = pathlib.Path(folder) / path.with_suffix(".rs")
            copy.parent.mkdir(parents=True, exist_ok=True)
            shutil.copy(path, copy)
        subprocess.run(["duplicates", "--most", "80", "--min-lines", "5"], cwd=folder, check=True)


def proofs():
    """Prints how many proof files, answers and lines each crate has."""
    for crate in sorted({path.parts[1] for path in FILES}):
        files = sorted(pathlib.Path("crates", crate, "proofs").rglob("*.antt"))
        if not files:
            continue
        text = [path.read_text() for path in files]
        answers = sum(len(re.findall(r"^pub [^:\n]+ : ", t, re.M)) for path, t in zip(files, text) if path.name != "Lib.antt" and path.parent.name != "proofs")
        print(f"  {crate}: {len(files)} files, {answers} answers, {sum(t.count(chr(10)) for t in text)} lines")


POINTS = {
    1: [
        ("own enums", lambda: lines_that(r"^\s*(pub |pub\(crate\) )?enum ")),
        ("flags", lambda: lines_that(r"^\s+(pub |pub\(crate\) )?\w+: bool,")),
        ("numbers as answers", lambda: lines_that(r"-> (u8|\((u8|u16|u32)\b|Answer)")),
        ("numbers for kinds", lambda: lines_that(r"\bcause: |\b(mode|constellation|rate|guard|parity|frame): (u8|u32)")),
    ],
    2: [("pairs of the same shape", twins)],
    3: [
        ("loops over numbers, and loops with a test", lambda: lines_that(r"^\s*(for \w+ in \(?[0-9a-z_.]+(\(\))?\.\.|while |loop \{)")),
        ("counts by hand", lambda: lines_that(r"^\s+(self\.)?[\w.]+ (\+= |= [\w.]+\.saturating_add\(1\))")),
    ],
    4: [
        ("impls of std's traits", lambda: lines_that(r"^impl.* (From|TryFrom|Display|PartialEq|Ord|Clone|Default|FromStr)\b.* for ")),
        ("conversions and texts by name", lambda: lines_that(r"fn (read|parse|code|number|named|usage|of|of_\w+|from_\w+|to_\w+|list|line|summary|sent|received|returned|refused|fault|verdict)\b")),
    ],
    5: [("facts and parameters that repeat", repeated)],
    6: [("arrays in structs", lambda: lines_that(r"^\s+(pub |pub\(crate\) )?\w+: \[[^\]]*; [^\]]*\],"))],
    7: [
        ("kinds of step", lambda: lines_that(r"enum (Call|Trial|Route|Job|Step|Kind)\b")),
        ("functions as values", lambda: lines_that(r"\bdyn |: fn\(|\bFn(Mut|Once)?\(")),
    ],
    8: [("proof files", proofs)],
}

for point in map(int, sys.argv[1:] or POINTS):
    for title, show in POINTS[point]:
        print(f"{point}. {title}")
        show()
