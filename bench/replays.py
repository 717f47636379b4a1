#!/usr/bin/env python3
"""replays.py PROGRAM [COUNT [SEED]]: random scripts for `PROGRAM replay`, by PROGRAM and by a plain model.

The scripts are made up from the seed; each fourth one has a fault. For each, standard output, standard error and the status have to be what
the model says. The last line counts the scripts and those that differ. Where one does, the status is 1 and the first such script is shown, made as small as it
gets by leaving out lines and making numbers smaller.

    python3 bench/replays.py "$(./dueproxy --where)" 10000 1"""
import random
import re
import subprocess
import sys
import time

from replay_model import replayed
from replay_scripts import Maker

SECONDS = 60
SHRINKING = 60
MOST_SHOWN = 4000
OF_A_TICKET = re.compile(rb"(\s*[0-9]+\s+(?:done|fail|abort)\s+)([0-9]+)(\s*)")
NUMBER = re.compile(rb"(?<!\S)(-?)([0-9]+)(?!\S)")


def printed(program, text):
    """Status, standard output and standard error of the program for a script."""
    try:
        run = subprocess.run([program, "replay"], input=text, capture_output=True, timeout=SECONDS, check=False)
    except subprocess.TimeoutExpired:
        return "none: it has no end", b"", b""
    return run.returncode, run.stdout, run.stderr


def differs(program, lines):
    text = b"".join(lines)
    return printed(program, text) != replayed(text)


def shrunk(program, lines):
    """The script made smaller, as long as it differs, and for a minute at most."""
    until = time.monotonic() + SHRINKING

    def still_differs(other):
        return time.monotonic() < until and differs(program, other)

    before = None
    while lines != before:
        before = lines
        lines = with_smaller_lines(with_fewer_lines(lines, still_differs), still_differs)
    return lines


def with_fewer_lines(lines, still_differs):
    size = len(lines) // 2
    while size:
        start = 0
        while start < len(lines):
            rest = lines[:start] + lines[start + size :]
            smaller = next((it for it in (renumbered(lines, start, size), rest) if still_differs(it)), None)
            lines, start = (lines, start + size) if smaller is None else (smaller, start)
        size //= 2
    return lines


def with_smaller_lines(lines, still_differs):
    for place in range(len(lines)):
        smaller = True
        while smaller:
            tries = ([*lines[:place], line, *lines[place + 1 :]] for line in shorter_ones(lines[place]))
            smaller = next((it for it in tries if still_differs(it)), None)
            lines = smaller or lines
    return lines


def renumbered(lines, start, size):
    """The lines without so many of them. Where an arrival is left out, tickets above its own one are one less."""
    tickets, gone = 0, []
    for place, line in enumerate(lines):
        if line.split()[1:2] == [b"arrive"]:
            tickets += 1
            gone += [tickets] * (start <= place < start + size)
    rest = lines[:start] + lines[start + size :]
    return [OF_A_TICKET.sub(lambda match: with_lower_ticket(match, gone), line) for line in rest]


def with_lower_ticket(match, gone):
    ticket = int(match[2])
    return match[1] + b"%d" % (ticket - sum(it < ticket for it in gone)) + match[3]


def shorter_ones(line):
    """A line with plain blanks, with one number smaller, or without its sign and zeros, or its first half where it is long."""
    plain = b" ".join(line.split()) + b"\n"
    if plain != line:
        yield plain
    for match in NUMBER.finditer(line):
        number = int(match[2])
        smaller = [match[1] + b"%d" % it for it in (0, 1, number // 2, number - 1) if 0 <= it < number]
        for word in [b"%d" % number, *smaller]:
            if word != match[0]:
                yield line[: match.start()] + word + line[match.end() :]
    if len(line) > 60:
        yield line[: len(line) // 2] + b"\n"


def show(program, lines):
    """A script, what the program makes of it, and what the model does."""
    text = b"".join(lines)
    print(short(text))
    for who, (status, out, err) in (("the program", printed(program, text)), ("the model", replayed(text))):
        print(f"{who}: status {status}", short(out), short(err), sep="\n")


def short(text):
    shown = text[:MOST_SHOWN].decode("latin-1")
    return "".join("  " + line for line in shown.splitlines(keepends=True)) + (" .." if len(text) > MOST_SHOWN else "")


def compare(program, count, seed):
    """The scripts that differ."""
    chance, wrong = random.Random(seed), []
    for number in range(count):
        lines = Maker(chance, number).made()
        if differs(program, lines):
            wrong.append(lines)
    return wrong


def main():
    program = sys.argv[1]
    count, seed = (int(word) for word in [*sys.argv[2:], *["3000", "1"][len(sys.argv) - 2 :]][:2])
    wrong = compare(program, count, seed)
    if wrong:
        show(program, shrunk(program, wrong[0]))
    print(f"{count} scripts, {len(wrong)} differ")
    sys.exit(1 if wrong else 0)


if __name__ == "__main__":
    main()
