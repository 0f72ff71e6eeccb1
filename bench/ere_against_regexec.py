#!/usr/bin/env python3
"""Compares the product's expressions with the C library's regcomp and regexec.

In crates/usp_bench_ere:

    python3 ../../bench/ere_against_regexec.py [--count N] [--seed S] [--quiet] -- COMMAND

COMMAND runs the program of that folder, as `rt run` does. It reads lines `EXPRESSION<tab>TEXT` and
prints for each `found`, `none` or the fault. Random expressions and texts are tried, and each
difference is printed with its reason. Where both take an expression and one alone finds a part of the text, Python's
`re` is asked too. The status is 1 where a difference has no reason that is known.
"""

import argparse
import ctypes
import ctypes.util
import random
import re
import subprocess
import sys
import warnings
from collections import Counter

PIECES = list("aab(()|*+?^$.[]{}-\\,:12") + [
    "[ab]", "[^a]", "[a-b]", "[[:alpha:]]", "[[:digit:]-]", "{1,2}", "{2}", "{0,1}", "(a|b)", "\\.",
    "\\<", "\\'", "[]a]", "[^]b]", "[+--]",
]
TEXT = "aabb12-]:.\\"
REG_EXTENDED = 1
REG_NOSUB = 8

# These are characters by themselves where POSIX is read alone, and operators in the GNU library.
GNU_OPERATORS = ("\\<", "\\>", "\\`", "\\'")


class Library:
    """The C library's expressions."""

    def __init__(self):
        self.c = ctypes.CDLL(ctypes.util.find_library("c"))
        self.c.regcomp.argtypes = [ctypes.c_void_p, ctypes.c_char_p, ctypes.c_int]
        self.c.regexec.argtypes = [
            ctypes.c_void_p, ctypes.c_char_p, ctypes.c_size_t, ctypes.c_void_p, ctypes.c_int,
        ]
        self.c.regfree.argtypes = [ctypes.c_void_p]

    def answer(self, expression, text):
        regex = ctypes.create_string_buffer(512)
        if self.c.regcomp(regex, expression.encode(), REG_EXTENDED | REG_NOSUB) != 0:
            return "refused"
        found = self.c.regexec(regex, text.encode(), 0, None, 0) == 0
        self.c.regfree(regex)
        return "found" if found else "none"


# The classes (POSIX, Base Definitions, section 7.3.1) as Python spells them inside brackets.
CLASSES = {"[:alpha:]": "A-Za-z", "[:digit:]": "0-9"}


def finds_by_python(expression, text):
    """What Python's `re` answers for the expression, spelled as `re` wants it; None where it takes none."""
    spelled, place = "", 0
    while place < len(expression):
        bracket = re.match(r"\[\^?\]?(?:\[:[a-z]+:\]|[^]])*\]", expression[place:])
        if expression[place] == "\\":
            spelled += re.escape(expression[place + 1 : place + 2])
            place += 2
        elif bracket:
            inside = bracket[0][1:-1].replace("\\", "\\\\")
            for name, members in CLASSES.items():
                inside = inside.replace(name, members)
            spelled += f"[{inside.replace('[', chr(92) + '[')}]"
            place += len(bracket[0])
        else:
            spelled += {"$": r"\Z"}.get(expression[place], expression[place])
            place += 1
    warnings.simplefilter("ignore", FutureWarning)
    try:
        return "found" if re.search(spelled, text, re.DOTALL) else "none"
    except re.error:
        return None


def random_case(generator):
    expression = "".join(generator.choice(PIECES) for _ in range(generator.randint(0, 8)))
    text = "".join(generator.choice(TEXT) for _ in range(generator.randint(0, 6)))
    return expression, text


def reason_for(expression, text, ours, theirs):
    """Why the two answers differ, or None where no reason is known."""
    if ours == theirs or (theirs == "refused" and ours not in ("found", "none")):
        return ""
    if ours.startswith("Undefined"):
        return "POSIX leaves it undefined: refused here, given a meaning by the library"
    if ours.startswith("Syntax") and "{" in expression:
        return "a `{` that begins no repeat: refused here, a character or a repeat for the library"
    if ours.startswith("Repeat"):
        return "a count above 255 or out of order"
    if ours == "TooLarge":
        return "more than 4,000 nodes"
    if any(operator in expression for operator in GNU_OPERATORS):
        return "a character by itself here, an operator of the GNU library"
    if theirs != "refused" and finds_by_python(expression, text) == ours:
        return "the library stands alone: Python's `re` answers as here"
    return None


def main():
    parser = argparse.ArgumentParser(
        description=__doc__, formatter_class=argparse.RawDescriptionHelpFormatter
    )
    parser.add_argument("command", nargs="+")
    parser.add_argument("--count", type=int, default=4000)
    parser.add_argument("--seed", type=int, default=1)
    parser.add_argument("--quiet", action="store_true", help="print the counts of the reasons alone")
    options = parser.parse_args()
    generator = random.Random(options.seed)
    cases = [random_case(generator) for _ in range(options.count)]
    lines = "".join(f"{expression}\t{text}\n" for expression, text in cases)
    run = subprocess.run(options.command, input=lines, capture_output=True, text=True, check=True)
    answers = run.stdout.splitlines()
    if len(answers) != len(cases):
        sys.exit(f"{len(answers)} answers to {len(cases)} cases")
    library = Library()
    reasons = Counter()
    for (expression, text), ours in zip(cases, answers):
        theirs = library.answer(expression, text)
        reason = reason_for(expression, text, ours, theirs)
        if reason == "":
            reasons["the same"] += 1
            continue
        reasons[reason or "NO REASON IS KNOWN"] += 1
        if reason is None or not options.quiet:
            print(f"{expression!r} on {text!r}: {ours} here, {theirs} there: {reason or 'NO REASON IS KNOWN'}")
    for reason, count in reasons.most_common():
        print(f"{count:6}  {reason}")
    sys.exit(1 if reasons["NO REASON IS KNOWN"] else 0)


if __name__ == "__main__":
    main()
