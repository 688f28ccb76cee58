#!/usr/bin/env python3
"""Usage: tests/cut_and_changed.py [PROGRAM]

Runs the program on each front of a file of wire formats, and on the file with each of its bytes changed to each of
sixteen others. Each run has to write one line of fault with its status, or a whole report with its status, and nothing
else. The last line is 'N passed, M failed'.
"""

import os
import re
import subprocess
import sys
from concurrent.futures import ThreadPoolExecutor
from pathlib import Path

HERE = Path(__file__).resolve().parent
ROWS = HERE.parent / "rows"
FILE = (ROWS / "wire_formats" / "stdin").read_bytes()

# Of each kind of byte that the grammar treats in its own way: the NUL, the end of a line, a space, marks that open and
# close, the quote of a lifetime, digits and letters, a byte that begins a character and bytes that stand in none.
TELLING = [0x00, 0x0A, 0x20, *b"\"'(/;<{}9a", 0x80, 0xC3, 0xFF]

NUMBER = r"(?:0|[1-9][0-9]*)"
AT = rf"at byte {NUMBER}, line [1-9][0-9]*"
FAULTS = {
    3: rf"not utf-8 {AT}|no token {AT}|bad number {AT}|open comment {AT}|unexpected token {AT}|unexpected end {AT}",
    4: rf"limit [a-z-]+ {NUMBER} passed(?: {AT})?",
    8: rf"ill-formed [a-z-]+ {AT}",
}
REFERENCE = re.compile(rf"&({NUMBER}) = &'.+")
ANSWER = re.compile(rf"({NUMBER}): (yes|no|refused)(?:, .+)?")
SUMMARY = re.compile(rf"({NUMBER}) yes, ({NUMBER}) no, ({NUMBER}) refused")


def is_fault(status, text):
    """Whether the text is one line of a fault that has the status."""
    return status in FAULTS and re.fullmatch(rf"(?:{FAULTS[status]})\n", text) is not None


def count_up(lines, form, first):
    """The matches of the lines at the front that have the form and are numbered from `first` on."""
    found = []
    for line in lines:
        match = form.fullmatch(line)
        if match is None or int(match[1]) != first + len(found):
            break
        found.append(match)
    return found


def is_report(status, text):
    """Whether the text is a whole report that has the status: references, answers, and what they come to."""
    if not text.endswith("\n"):
        return False
    lines = text[:-1].split("\n")
    lines = lines[len(count_up(lines, REFERENCE, 0)) :]
    answers = [match[2] for match in count_up(lines, ANSWER, 1)]
    lines = lines[len(answers) :]
    summary = SUMMARY.fullmatch(lines[0]) if len(lines) == 1 else None
    if summary is None:
        return False
    counts = [answers.count(kind) for kind in ("yes", "no", "refused")]
    all_yes = counts[1] == counts[2] == 0
    return [int(n) for n in summary.groups()] == counts and status == (0 if all_yes else 1)


def is_right(program, file):
    """Whether the program answers the file with a line of fault or a whole report."""
    run = subprocess.run([program], input=file, capture_output=True, check=False)
    text = run.stdout.decode("utf-8", "replace")
    return not run.stderr and (is_fault(run.returncode, text) or is_report(run.returncode, text))


def cases():
    """Each file, with what was done to it."""
    for length in range(len(FILE) + 1):
        yield f"the first {length} bytes", FILE[:length]
    for place, old in enumerate(FILE):
        for byte in TELLING:
            if byte != old:
                yield f"byte {place} as {byte:02X}", FILE[:place] + bytes([byte]) + FILE[place + 1 :]


def main():
    program = sys.argv[1] if len(sys.argv) > 1 else HERE.parent / "crates/transmute_report/out/transmute_report"
    names, files = zip(*cases())
    with ThreadPoolExecutor(os.cpu_count()) as pool:
        right = list(pool.map(lambda file: is_right(program, file), files))
    for name, passed in zip(names, right):
        if not passed:
            print(f"differs: {name}")
    print(f"{sum(right)} passed, {len(right) - sum(right)} failed")
    return 0 if all(right) else 1


if __name__ == "__main__":
    sys.exit(main())
