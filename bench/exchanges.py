#!/usr/bin/env python3
"""exchanges.py PROGRAM [COUNT [SEED]]: random exchanges between a client and its servers, by PROGRAM and by a plain model.

PROGRAM is what `crates/bench_exchanges` makes. For COUNT exchanges this script makes up what both sides send, in which pieces and order, where they
end, break, stall or are silent, which connections fail and which requests get no pass; PROGRAM plays that by the calls that `run` makes, and the model says what
has to come of it: what the client is told, what each server is sent, and how each pass goes out. Where several moves come at once, what comes of each order of
them is right, and a server whose exchange ends meanwhile may have been sent less. The last line counts the exchanges and those that differ. Where one does, the
status is 1 and the first such script is shown, made as small as it gets by leaving out moves and bytes.

    python3 bench/exchanges.py crates/bench_exchanges/out/bench_exchanges 100000 1
    python3 bench/exchanges.py --stored crates/bench_exchanges

The second form writes the run that `rt ci` compares: what the crate's program reads, and what the model says that it has to print."""
import copy
import itertools
import pathlib
import random
import subprocess
import sys
import time

from exchange_model import Model, Terms
from exchange_scripts import SAMPLES, Maker

AT_ONCE = 500
SECONDS = 600
SHRINKING = 60


class Script:
    """A connection's terms and its moves, in groups that come at once, and what may come of it."""

    def __init__(self, terms, groups):
        self.terms, self.groups = terms, groups

    def text(self):
        lines = [f"exchange {self.terms}".rstrip()]
        for group in self.groups:
            for place, (name, what) in enumerate(group):
                lines.append(("and " if place else "") + name + said_of(what))
        return "\n".join([*lines, "end"]) + "\n"

    def results(self):
        """What may come of it: that of each order of the moves that come at once."""
        models = [Model(Terms(self.terms))]
        for group in self.groups:
            models = [after for model in models for after in play_group(model, group)]
        return [model.result() for model in models]


def said_of(what):
    if what is None:
        return ""
    return f" {what}" if isinstance(what, int) else f" {encoded(what)}"


def encoded(data):
    return "".join(chr(byte) if 0x21 <= byte <= 0x7E and byte != 37 else f"%{byte:02x}" for byte in data)


def orders(group):
    """The orders of moves in which each side's stay in theirs."""
    if len(group) == 1:
        return [group]
    client = [move for move in group if move[0].startswith("client")]
    server = [move for move in group if not move[0].startswith("client")]
    found = []
    for places in itertools.combinations(range(len(group)), len(client)):
        rest = {"client": iter(client), "server": iter(server)}
        found.append([next(rest["client" if place in places else "server"]) for place in range(len(group))])
    return found


def play_group(model, group):
    """The model behind a group of moves, in each order of them. What a new connection takes is known as it comes."""
    if len(group) == 1 or group[0][0].startswith("connected"):
        model.happen(group)
        return [model]
    models = []
    for order in orders(group):
        it = copy.deepcopy(model)
        it.mark()
        for move in order:
            it.happen([move])
        it.unmark()
        models.append(it)
    return models


def lines_of(result):
    """What is printed of a result."""
    lines = ["told " + encoded(result.told)]
    lines += ["sent " + encoded(sent) for sent in result.sents]
    lines += ["pass " + ending for ending in result.passes]
    return [*lines, f"answers {result.answers}", f"ends {result.stage}"]


def is_result(lines, result):
    """Whether these lines are what may be printed of a result. What was still on its way as an exchange ended may be missing."""
    wanted = lines_of(result)
    least = [result.least_told(), *result.floors]
    return len(lines) == len(wanted) and all(
        is_line(line, want, least[place] if place < len(least) else None) for place, (line, want) in enumerate(zip(lines, wanted))
    )


def is_line(line, want, least):
    return line == want or (least is not None and want.startswith(line) and least <= decoded_length(line))


def decoded_length(line):
    return len(line) - len("sent ") - 2 * line.count("%")


def printed(program, scripts):
    """What the program prints of each script."""
    run = subprocess.run([program], input="".join(it.text() for it in scripts).encode(), capture_output=True, timeout=SECONDS, check=False)
    if run.returncode:
        raise SystemExit(f"the program ended with status {run.returncode}: {run.stderr.decode()}")
    found, lines = [], []
    for line in run.stdout.decode().splitlines():
        lines.append(line)
        if line.startswith("ends "):
            found.append(lines)
            lines = []
    return found


def differs(program, script):
    results = script.results()
    return not any(is_result(printed(program, [script])[0], result) for result in results)


def shrunk(program, script):
    """The script made smaller, as long as it differs, and for a minute at most."""
    until = time.monotonic() + SHRINKING
    smaller = True
    while smaller:
        smaller = False
        for other in smaller_ones(script):
            if time.monotonic() > until:
                return script
            if other.groups and differs(program, other):
                script, smaller = other, True
                break
    return script


def smaller_ones(script):
    for place, group in enumerate(script.groups):
        for inner in range(len(group)):
            rest = [*group[:inner], *group[inner + 1 :]]
            yield Script(script.terms, [*script.groups[:place], *([rest] if rest else []), *script.groups[place + 1 :]])
    for place, group in enumerate(script.groups):
        for inner, (name, what) in enumerate(group):
            for shorter in shorter_ones(what):
                changed = [*group[:inner], (name, shorter), *group[inner + 1 :]]
                yield Script(script.terms, [*script.groups[:place], changed, *script.groups[place + 1 :]])


def shorter_ones(what):
    if not isinstance(what, bytes):
        return
    size = len(what) // 2
    while size:
        for start in range(0, len(what), size):
            shorter = what[:start] + what[start + size :]
            if shorter:
                yield shorter
        size //= 2


def show(program, script):
    """A script, what the program makes of it, and what the model does."""
    print(script.text(), end="")
    print("the program:", *printed(program, [script])[0], sep="\n  ")
    for result in script.results():
        print("the model:", *lines_of(result), sep="\n  ")


def compare(program, count, seed):
    """How many exchanges were compared, so many at least, and the scripts that differ."""
    chance = random.Random(seed)
    exchanges, wrong = 0, []
    while exchanges < count:
        scripts = [Script(*Maker(chance).made()) for _ in range(AT_ONCE)]
        for script, lines in zip(scripts, printed(program, scripts), strict=True):
            results = script.results()
            exchanges += results[0].exchanges
            if not any(is_result(lines, result) for result in results):
                wrong.append(script)
    return exchanges, wrong


def store(folder):
    scripts = [Script(terms, [[move] for move in moves]) for terms, moves in SAMPLES]
    results = [script.results()[0] for script in scripts]
    pathlib.Path(folder, "stdin").write_text("".join(script.text() for script in scripts))
    pathlib.Path(folder, "stdout").write_text("".join(line + "\n" for result in results for line in lines_of(result)))


def main():
    if sys.argv[1:2] == ["--stored"]:
        store(sys.argv[2])
        return
    program = sys.argv[1]
    count, seed = (int(word) for word in [*sys.argv[2:], *["10000", "1"][len(sys.argv) - 2 :]][:2])
    exchanges, wrong = compare(program, count, seed)
    if wrong:
        show(program, shrunk(program, wrong[0]))
    print(f"{exchanges} exchanges, {len(wrong)} differ")
    sys.exit(1 if wrong else 0)


if __name__ == "__main__":
    main()
