#!/usr/bin/env python3
"""shown.py PROGRAM: what the program prints for people, beside stored runs: `convert`, `check`, `draw`, `explain`, faults, help.

Each file of `bench/shown` is a run: a comment, and then sections. A section begins with a line `== ..` and has the lines up to the next one:

    == words         the command line without the program's name, with blanks and quotes as in a shell. Words `NAME=VALUE` at its front are set in the
                     environment. `>FILE` and `2>FILE` at its end send standard output or error to FILE, and `>terminal`, `2>terminal` and `<terminal`
                     make that stream a terminal. Without a shell: no other sign counts.
    == file NAME     a file in the folder where the run begins; the same NAME again adds to it. With ` x N` at the line's end its text stands N times.
    == folder NAME   a folder there
    == parts         patterns, one a line: of standard output and error only what these match counts, or their first group, each once and sorted. It
                     is for what differs from run to run. Bytes are written as in Python's texts.
    == stdin         what comes on standard input, which is empty otherwise; ` x N` as above
    == stdout, == stderr, == status    what the program has to print, and its exit status

Where a text ends without a line feed, a line `== no line feed` follows it. Runs that differ are shown as a difference of stored and printed lines, 40 at
most for each. The last line counts the runs and those that differ; the status is 1 where one does.

    python3 bench/shown.py PROGRAM
    python3 bench/shown.py PROGRAM --store NAME..

The second form writes what the program prints for these runs into their files, behind their other sections. Read it before it is kept: what is stored
counts as right."""
import concurrent.futures
import difflib
import os
import pathlib
import pty
import re
import shlex
import subprocess
import sys
import tempfile
import tty

FOLDER = pathlib.Path(__file__).resolve().parent / "shown"
SECONDS = 20
AT_ONCE = 8
MOST_LINES = 40
NO_LINE_FEED = b"== no line feed\n"
HEAD = re.compile(rb"^== (words|file (\S+)|folder (\S+)|parts|stdin|stdout|stderr|status)(?: x ([0-9]+))?\n", re.M)
RESULTS = ("stdout", "stderr", "status")
OWN_NAME = re.compile(rb"^(Usage: |error: ')[^ ']+( |' requires )", re.M)
REDIRECTION = re.compile(r"(2?>|<)(.+)")


class Case:
    """A run's file: its front as it stands, what is read from it, and what is stored of the run."""

    def __init__(self, path):
        self.name = path.name
        text = path.read_bytes()
        heads = list(HEAD.finditer(text))
        self.files, self.folders, self.parts, self.stdin, self.stored, self.words = {}, [], [], b"", {}, None
        self.front = text
        for head, after in zip(heads, [*heads[1:], None]):
            self.take(head, text[head.end() : after.start() if after else len(text)])
            if head[1].decode() in RESULTS:
                self.front = self.front[: head.start()]
        if self.words is None:
            raise SystemExit(f"{path}: no section of words")

    def take(self, head, text):
        kind = head[1].decode().split()[0]
        text = text.removesuffix(b"\n" + NO_LINE_FEED) if text.endswith(b"\n" + NO_LINE_FEED) else text
        text *= int(head[4] or 1)
        if kind == "words":
            self.words = shlex.split(text.decode())
        elif kind == "file":
            name = head[2].decode()
            self.files[name] = self.files.get(name, b"") + text
        elif kind == "folder":
            self.folders.append(head[3].decode())
        elif kind == "parts":
            self.parts = [re.compile(line, re.M) for line in text.splitlines()]
        elif kind == "stdin":
            self.stdin += text
        else:
            self.stored[kind] = text

    def run(self, program):
        """What the program prints for it: the three results as bytes."""
        with tempfile.TemporaryDirectory() as folder:
            for name in self.folders:
                (pathlib.Path(folder) / name).mkdir()
            for name, text in self.files.items():
                (pathlib.Path(folder) / name).write_bytes(text)
            out, err, status = Run(program, self, folder).results()
        return {"stdout": self.counted(out), "stderr": self.counted(err), "status": b"%d\n" % status}

    def counted(self, text):
        """What counts of a text that was printed."""
        if not self.parts:
            return with_plain_name(text)
        found = {match[min(part.groups, 1)].decode("latin-1") for part in self.parts for match in part.finditer(text)}
        return b"".join(part.encode("unicode_escape") + b"\n" for part in sorted(found))


class Run:
    """One run of the program in a folder of its own."""

    def __init__(self, program, case, folder):
        self.program, self.case, self.folder = program, case, folder
        self.words, self.environment, self.targets = [], {"PATH": os.environ.get("PATH", ""), "LC_ALL": "C"}, {}
        for word in case.words:
            target = REDIRECTION.fullmatch(word)
            if target:
                self.targets[target[1]] = target[2]
            elif not self.words and re.match(r"[A-Z_]+=", word):
                name, value = word.split("=", 1)
                self.environment[name] = value
            else:
                self.words.append(word)

    def results(self):
        opened = []
        try:
            streams = [self.stream(sign, opened) for sign in ("<", ">", "2>")]
            process = subprocess.Popen(["dueproxy", *self.words], executable=self.program, cwd=self.folder, env=self.environment,
                                       stdin=streams[0][0], stdout=streams[1][0], stderr=streams[2][0])
            for inside, outside in streams:
                if outside is not None:
                    os.close(inside)
                    opened.remove(inside)
            return self.awaited(process, [outside for _, outside in streams])
        finally:
            for descriptor in opened:
                os.close(descriptor)

    def stream(self, sign, opened):
        """What the program has as a stream, and the terminal's other end, where it is a terminal."""
        target = self.targets.get(sign)
        if target == "terminal":
            outside, inside = pty.openpty()
            opened += [outside, inside]
            if sign != "<":
                tty.setraw(inside)
            return inside, outside
        if target is None:
            return subprocess.PIPE, None
        opened.append(os.open(pathlib.Path(self.folder) / target, os.O_RDONLY if sign == "<" else os.O_WRONLY | os.O_CREAT | os.O_TRUNC))
        return opened[-1], None

    def awaited(self, process, terminals):
        """The results, when the program has ended. What it is given on a terminal ends with the sign for an end."""
        if terminals[0] is not None:
            os.write(terminals[0], self.case.stdin + b"\4")
        with concurrent.futures.ThreadPoolExecutor(2) as readers:
            texts = {place: readers.submit(all_of_terminal, terminals[place]) for place in (1, 2) if terminals[place] is not None}
            try:
                out, err = process.communicate(self.case.stdin if process.stdin else None, timeout=SECONDS)
            except subprocess.TimeoutExpired:
                process.kill()
                out, err = process.communicate()
            shown = [texts[place].result() if place in texts else text or b"" for place, text in ((1, out), (2, err))]
        return *shown, process.returncode


def with_plain_name(text):
    """The text as a program named dueproxy writes it, where it doesn't go by the name that it is started with."""
    return OWN_NAME.sub(rb"\1dueproxy\2", text)


def all_of_terminal(outside):
    """What comes at a terminal until the last program that has it has ended."""
    text = b""
    while True:
        try:
            more = os.read(outside, 65536)
        except OSError:
            return text
        if not more:
            return text
        text += more


def section(name, text):
    if HEAD.search(text) or NO_LINE_FEED in text:
        raise SystemExit(f"a line of {name} begins like a section")
    return b"== " + name.encode() + b"\n" + text + (b"\n" + NO_LINE_FEED if text and not text.endswith(b"\n") else b"")


def difference(case, results):
    """The lines in which the stored results and these differ."""
    lines = []
    for name in RESULTS:
        stored = case.stored.get(name)
        if stored != results[name]:
            before, after = ([line.decode("latin-1") for line in text.splitlines()] for text in (stored or b"", results[name]))
            found = list(difflib.unified_diff(before, after, f"{case.name}: {name}, stored", f"{case.name}: {name}, printed", lineterm=""))
            lines += found or [f"{case.name}: {name} differs in line ends"]
    return lines


def store(case, results):
    front = case.front if case.front.endswith(b"\n") else case.front + b"\n"
    (FOLDER / case.name).write_bytes(front + b"".join(section(name, results[name]) for name in RESULTS))


def main():
    program = str(pathlib.Path(sys.argv[1]).resolve())
    names = sys.argv[3:] if sys.argv[2:3] == ["--store"] else None
    cases = [Case(path) for path in sorted(FOLDER.iterdir()) if names is None or path.name in names]
    if names is not None and len(cases) != len(set(names)):
        raise SystemExit("no such run: " + " ".join(sorted(set(names) - {case.name for case in cases})))
    differ = 0
    with concurrent.futures.ThreadPoolExecutor(AT_ONCE) as pool:
        for case, results in zip(cases, pool.map(lambda case: case.run(program), cases)):
            if names is not None:
                store(case, results)
                continue
            lines = difference(case, results)
            differ += bool(lines)
            for line in lines[:MOST_LINES]:
                print(line)
            if len(lines) > MOST_LINES:
                print(f".. and {len(lines) - MOST_LINES} lines more")
    if names is None:
        print(f"{len(cases)} runs, {differ} differ")
    sys.exit(1 if differ else 0)


if __name__ == "__main__":
    main()
