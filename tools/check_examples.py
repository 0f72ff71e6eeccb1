#!/usr/bin/env python3
"""Runs each command of README.md and docs/ that is marked as an example, and compares what it prints.

A mark is a line of the page, which readers do not see, before a block of commands:

    <!-- example -->                        the status is 0, and the next text block is what is printed
    <!-- example status 1 -->               the same with another status
    <!-- example prints examples/c_sign.out -->   what is printed is that file

The block begins with ```sh. Its lines are run one after the other by a shell at the top of the repository. What is
printed stands in the next block that begins with ```text, before the next mark. `[..]` in it stands for any letters of
one line. The program is crates/usp/out/usp, which `rt run` builds where it is not that of these files.

Usage: tools/check_examples.py [PAGE ..]. The status is 1 where an example differs.
"""
import pathlib
import re
import subprocess
import sys

TOP = pathlib.Path(__file__).resolve().parent.parent
PROGRAM = TOP / "crates" / "usp" / "out" / "usp"
MARK = re.compile(r"<!-- example(?: status (?P<status>\d+))?(?: prints (?P<file>\S+))? -->")
BLOCK = re.compile(r"```(?P<kind>\w*)\n(?P<text>.*?)^```$", re.DOTALL | re.MULTILINE)
SECONDS = 60


def pages():
    if len(sys.argv) > 1:
        return [pathlib.Path(name).resolve() for name in sys.argv[1:]]
    return [TOP / "README.md", *sorted((TOP / "docs").glob("*.md"))]


def first_block(kind, text):
    for block in BLOCK.finditer(text):
        if block["kind"] == kind:
            return block["text"]
    return None


def examples(page):
    """Of each mark: its line, its commands, what is to be printed, and the status."""
    text = page.read_text(encoding="utf-8")
    marks = list(MARK.finditer(text))
    for mark, following in zip(marks, [*marks[1:], None]):
        rest = text[mark.end() : following.start() if following else len(text)]
        line = text.count("\n", 0, mark.start()) + 1
        expected = (TOP / mark["file"]).read_text() if mark["file"] else first_block("text", rest)
        yield line, first_block("sh", rest), expected, int(mark["status"] or 0)


def is_printed(expected, printed):
    pattern = ".*".join(re.escape(part) for part in expected.split("[..]"))
    return re.fullmatch(pattern, printed) is not None


def fault_of(commands, expected, status):
    if commands is None or expected is None:
        return "there is no block of commands, or nothing that it prints"
    run = subprocess.run(commands, shell=True, cwd=TOP, capture_output=True, text=True, timeout=SECONDS)
    if run.returncode != status:
        return f"status {run.returncode}, not {status}: {run.stderr.strip()}"
    if not is_printed(expected, run.stdout):
        return f"printed:\n{run.stdout}"
    return None


def main():
    subprocess.run(["rt", "run"], cwd=PROGRAM.parent.parent, stdin=subprocess.DEVNULL, check=False)
    count, faults = 0, 0
    for page in pages():
        for line, commands, expected, status in examples(page):
            count += 1
            fault = fault_of(commands, expected, status)
            if fault:
                faults += 1
                print(f"{page.relative_to(TOP)}:{line}: {fault}")
    print(f"examples: {count} run, {faults} differ")
    return 1 if faults or not count else 0


if __name__ == "__main__":
    sys.exit(main())
