#!/usr/bin/env python3
"""What the layout tool does not look at: long lines and long files.

No line of src/ or specs/ is longer than 120 columns, but for imports and for `#[tactic(..)]`, each of which the layout
tool keeps on one line, and no file of these or of proofs/ is longer than 800 lines. A column is a character. Usage:
tools/check_layout.py, at the top or anywhere else. The status is 1 where something is too long.
"""
import pathlib
import re
import sys

TOP = pathlib.Path(__file__).resolve().parent.parent
MOST_COLUMNS = 120
MOST_LINES = 800
ONE_LINE = re.compile(r"\s*(ghost use |pub use |use |#\[tactic\()")


def sources():
    for kind in ("src", "specs", "proofs"):
        for suffix in ("*.rt", "*.antt"):
            yield from sorted(TOP.glob(f"crates/*/{kind}/**/{suffix}"))


def faults_of(path):
    lines = path.read_text(encoding="utf-8").splitlines()
    name = path.relative_to(TOP)
    if len(lines) > MOST_LINES:
        yield f"{name}: {len(lines)} lines, more than {MOST_LINES}"
    if path.relative_to(TOP).parts[2] == "proofs":
        return
    for number, line in enumerate(lines, 1):
        if len(line) > MOST_COLUMNS and not ONE_LINE.match(line):
            yield f"{name}:{number}: {len(line)} columns, more than {MOST_COLUMNS}"


def main():
    paths = list(sources())
    faults = [fault for path in paths for fault in faults_of(path)]
    for fault in faults:
        print(fault)
    print(f"layout: {len(paths)} files, {len(faults)} too long")
    return 1 if faults else 0


if __name__ == "__main__":
    sys.exit(main())
