#!/usr/bin/env python3
"""What the program says where something is wrong, and what its words FILE and `-` read, on its real path: files, folders, addresses,
terminals. It needs nothing but Python, starts `./dueproxy` (or what the variable PROGRAM names), and takes some seconds. The last line
is how many of how many cases are as they should be; the status is 1 where one isn't.

    python3 bench/words.py"""
import os
import pathlib
import pty
import re
import shutil
import socket
import subprocess
import sys
import tempfile
import time

HERE = pathlib.Path(__file__).resolve().parent.parent
SECONDS = 20
CASES = []
SCRIPT = "0 arrive 0 0\n1 arrive 0 0\n2 arrive 0 -5\n10 done 1\n20 done 3\n"
LISTEN = "listen w\n mode http\n bind 127.0.0.1:{port}\n server a 127.0.0.1:9\n"
IDLE = "global\n user u\n chroot /x\n daemon\n log h local0\n maxconn 9\ndefaults\n log global\n option httplog\n"


class Wrong(Exception):
    """What was seen in place of what should be."""


class Ended:
    """What a run wrote, and its status."""

    def __init__(self, status, out, err):
        self.status, self.out, self.err = status, out, err
        self.lines = err.splitlines()


def case(function):
    CASES.append(function)
    return function


def expect(good, *seen):
    if not good:
        raise Wrong(" ".join(map(repr, seen)))


def same(seen, wanted):
    expect(seen == wanted, seen, "in place of", wanted)


# Running it.


def find_program(folder):
    """A copy of the program that ./dueproxy starts, which anyone may start."""
    named = os.environ.get("PROGRAM")
    if not named:
        started = subprocess.Popen([HERE / "dueproxy", "replay"], stdin=subprocess.PIPE, stdout=subprocess.DEVNULL, stderr=subprocess.DEVNULL)
        named = await_program(started)
        started.communicate(b"")
    copy = folder / "dueproxy"
    shutil.copyfile(named, copy)
    copy.chmod(0o755)
    return copy


def await_program(started):
    """./dueproxy compiles the program where none is there, and then becomes it."""
    while started.poll() is None:
        seen = os.readlink(f"/proc/{started.pid}/exe")
        if seen.endswith("/dueproxy"):
            return seen
        time.sleep(0.01)
    sys.exit("./dueproxy could not be started")


def run(*words, given="", nobody=False):
    """Runs the program on a text."""
    who = {"user": 65534, "group": 65534, "extra_groups": []} if nobody and os.geteuid() == 0 else {}
    ended = subprocess.run([PROGRAM, *words], input=given.encode(), capture_output=True, timeout=SECONDS, cwd=HERE, **who)
    return Ended(ended.returncode, ended.stdout.decode(), ended.stderr.decode())


def run_at_terminal(*words, typed=""):
    """Runs the program with a terminal as standard input and standard error, where a text and its end are typed."""
    ours, theirs = pty.openpty()
    started = subprocess.Popen([PROGRAM, *words], stdin=theirs, stdout=subprocess.PIPE, stderr=theirs, cwd=HERE)
    os.close(theirs)
    os.write(ours, (typed + "\4").encode())
    out = started.stdout.read().decode()
    shown = read_terminal(ours)
    os.close(ours)
    return Ended(started.wait(SECONDS), out, shown.replace("\r\n", "\n"))


def read_terminal(end):
    shown = b""
    try:
        while piece := os.read(end, 65536):
            shown += piece
    except OSError:
        pass
    return shown.decode()


def file(name, text):
    path = FOLDER / name
    path.write_text(text)
    path.chmod(0o644)
    return str(path)


def free_port():
    with socket.socket() as it:
        it.bind(("127.0.0.1", 0))
        return it.getsockname()[1]


# What is read.


@case
def a_named_file_a_dash_and_standard_input_are_read_alike():
    name = file("a.script", SCRIPT)
    for words in (["replay"], ["draw"], ["draw", "--of", "*", "0"], ["explain", "2"]):
        plain = run(*words, given=SCRIPT)
        same(plain.status, 0)
        expect(plain.out, words)
        for other in (run(*words, name), run(*words, "-", given=SCRIPT)):
            same((other.status, other.out, other.err), (0, plain.out, ""))


@case
def at_a_terminal_it_is_said_what_is_awaited():
    for words, awaited in ((["replay"], "a script"), (["draw"], "a script or a trace"), (["explain", "1"], "a script or a trace")):
        ended = run_at_terminal(*words, typed="0 arrive 0 0\n")
        expect(f"waiting for {awaited} on standard input" in ended.err, words, ended.err)
        same(ended.status, 0)


@case
def nothing_is_said_where_something_was_named():
    name = file("a.script", SCRIPT)
    for words in (["replay", "-"], ["replay", name], ["draw", name], ["explain", "1", "-"]):
        ended = run_at_terminal(*words, typed=SCRIPT)
        expect("waiting" not in ended.err, words, ended.err)
        same(ended.status, 0)


# Files that can't be read.

READERS = (["replay"], ["draw"], ["explain", "1"], ["check"], ["check", "--explain"], ["convert"], ["run"])


def is_unread(ended, name, words, remedy):
    same((ended.status, ended.out), (1, ""))
    same(ended.lines[0], "read fault")
    expect(ended.lines[1].startswith(f"{name}: {words}"), ended.lines)
    expect(remedy in ended.lines[2], ended.lines)


@case
def a_missing_file_is_named():
    for words in READERS:
        name = str(FOLDER / "missing")
        is_unread(run(*words, name), name, "No such file or directory", "Is the name right?")


@case
def a_folder_is_named():
    for words in READERS:
        is_unread(run(*words, str(FOLDER)), str(FOLDER), "Is a directory", "Name a file in it.")


@case
def a_file_that_may_not_be_read_is_named():
    name = file("secret", SCRIPT)
    os.chmod(name, 0)
    for words in READERS:
        is_unread(run(*words, name, nobody=True), name, "Permission denied", "a user who may read it")


# Addresses that can't be listened at.


def is_unheard(text, address, words, remedy):
    ended = run("run", file("run.cfg", text), "--requests", "1", nobody=True)
    same((ended.status, ended.out), (1, ""))
    same(ended.lines[0], "read fault")
    expect(ended.lines[1].startswith(f"{address}: {words}"), ended.lines)
    expect(remedy in ended.lines[2], ended.lines)


@case
def a_port_in_use_is_named():
    with socket.socket() as taken:
        taken.bind(("127.0.0.1", 0))
        taken.listen()
        port = taken.getsockname()[1]
        is_unheard(LISTEN.format(port=port), f"127.0.0.1:{port}", "Address already in use", "ss -ltnp")


@case
def a_privileged_port_is_named():
    least = int(pathlib.Path("/proc/sys/net/ipv4/ip_unprivileged_port_start").read_text())
    if least > 80:
        is_unheard(LISTEN.format(port=80), "127.0.0.1:80", "Permission denied", "CAP_NET_BIND_SERVICE")


@case
def an_address_of_another_machine_is_named():
    text = LISTEN.format(port=8080).replace("127.0.0.1:8080", "192.0.2.1:8080")
    is_unheard(text, "192.0.2.1:8080", "Cannot assign requested address", "*:PORT")


# Faulty scripts and traces.


def is_faulty(text, first, marked, mark, said):
    for words in (["replay"], ["draw"], ["explain", "1"]):
        if words == ["replay"] and first.startswith("trace"):
            continue
        ended = run(*words, given=text)
        same((ended.status, ended.out), (5, ""))
        same(ended.lines[:3], [first, marked, mark])
        expect(said in ended.err, ended.err)


@case
def a_faulty_script_has_its_line_a_mark_and_the_cause():
    is_faulty("0 arrive 0 0\n0 arrive 0\n", "script line 2", "line 2: 0 arrive 0", " " * 18 + "^", "M arrive CLASS OFFSET [NAME]")
    is_faulty("server a 1 x 1\n0 tick\n", "script line 1", "line 1: server a 1 x 1", " " * 19 + "^", "A number of 1 to 9 digits")
    is_faulty("0 arive 0 0\n0 arrive 1 1\n", "script line 1", "line 1: 0 arive 0 0", " " * 10 + "^^^^^", "Did you mean arrive?")


@case
def a_faulty_trace_has_its_line_and_the_cause():
    is_faulty("5 tick\n4 tick\n  end 1\n", "trace line 2: a moment before the last event's", "line 2: 4 tick", " " * 8 + "^", "")


@case
def each_refusal_has_its_words_in_the_help():
    numbers = set(re.findall(r"^\| (\d+) \|", (HERE / "docs/FORMATS.md").read_text().split("| N | Refusal |")[1].split("\n\n")[0], re.M))
    expect(len(numbers) == 6, numbers)
    for words in (["--help"], ["replay", "--help"]):
        text = run(*words).out
        for number in numbers:
            expect(re.search(rf"refused {number}\s+\w", text), number, words)


@case
def each_command_has_an_example():
    for name in ("replay", "demo", "draw", "explain", "check", "convert", "run"):
        ended = run(name, "--help")
        same((ended.status, ended.err), (0, ""))
        expect(f"For example, dueproxy {name}" in ended.out, name)


# Configurations.


@case
def a_check_at_no_terminal_says_its_line_alone():
    for text, status, line in ((IDLE + LISTEN.format(port=80), 0, "ok servers 1\n"), ("listen w\n serverr\n", 3, "config line 2: keyword\n")):
        ended = run("check", file("c.cfg", text))
        same((ended.status, ended.out, ended.err), (status, line, ""))


@case
def a_check_at_a_terminal_says_why():
    ended = run_at_terminal("check", file("c.cfg", LISTEN.format(port=80) + " serverr b h:80\n"))
    same((ended.status, ended.out), (3, "config line 5: keyword\n"))
    for said in ("line 5:  serverr b h:80\n", "         ^^^^^^^\n", "keyword: ", "Did you mean server?"):
        expect(said in ended.err, said, ended.err)


@case
def the_nearest_known_word_is_named():
    rows = {" serverr a h:80": "server", " option redispach": "redispatch", " timeout qeue 1s": "queue", " server b h:80 maxcon 4": "maxconn",
            " http-request set-priority-clas int(1)": "set-priority-class", " balence leastconn": "balance", " balance leastcon": "leastconn"}
    for line, word in rows.items():
        ended = run("check", "--explain", file("c.cfg", LISTEN.format(port=80) + line + "\n"))
        expect(f"Did you mean {word}?" in ended.out, line, ended.out)
    ended = run("check", "--explain", file("c.cfg", LISTEN.format(port=80) + " option tcplog\n frobnicate\n"))
    expect("Did you mean" not in ended.out, ended.out)


@case
def lines_without_effect_are_named_once():
    name = file("c.cfg", IDLE + LISTEN.format(port=80))
    for ended in (run("check", "--explain", name), run_at_terminal("check", name)):
        same((ended.status, ended.out), (0, "ok servers 1\n"))
        warned = [line.split(" has no effect")[0] for line in ended.lines]
        same(warned, [f"warning: line {at}: {what}" for at, what in
                      ((2, "user in global"), (3, "chroot in global"), (4, "daemon in global"), (5, "log in global"), (6, "maxconn in global"),
                       (9, "option httplog"))])


@case
def what_is_said_of_a_bind_is_taken():
    ended = run("check", "--explain", file("c.cfg", LISTEN.format(port=80).replace("127.0.0.1:80", "localhost:18080")))
    binds = re.findall(r"bind (\S+\d)\b", ended.out.split("instead: ")[1])
    expect(len(binds) == 2, ended.out)
    for bind in binds:
        same(run("check", file("c.cfg", LISTEN.format(port=80).replace("127.0.0.1:80", bind))).out, "ok servers 1\n")


@case
def a_faulty_configuration_of_run_has_its_cause():
    ended = run("run", file("c.cfg", LISTEN.format(port=80) + " serverr\n"))
    same((ended.status, ended.out), (3, "config line 5: keyword\n"))
    expect("Did you mean server?" in ended.err, ended.err)


# Pictures and stories.


@case
def a_picture_of_what_is_not_there_lists_what_is():
    for words, first in ((["zz", "0"], "there is no such queue"), (["*", "7"], "no request of this class waits in this queue")):
        ended = run("draw", "--of", *words, "examples/classes.script")
        same((ended.status, ended.out), (2, ""))
        same(ended.lines[0], first)
        there = re.search(r"by their classes: (.*)", ended.err)[1].split(", ")
        expect(there, ended.err)
        for each in there:
            same(run("draw", "--of", *each.split(), "examples/classes.script").status, 0)


@case
def a_script_in_which_nobody_waits_says_so():
    ended = run("draw", "--of", "a", "0", given="0 arrive 0 0\n")
    same((ended.status, ended.lines), (2, ["there is no such queue", "  No request waits in a queue."]))


@case
def who_is_early_is_not_late_below_nothing():
    text = run("draw", "examples/rush.script").out
    expect("worst 28 ms early" in text and "worst 11 ms late" in text and "worst -" not in text, text[-900:])
    text = run("explain", "9", "examples/rush.script").out
    expect("28 ms early at most" in text and "-28" not in text, text)


# Conversions.


def converted(text, *words):
    return run("convert", file("h.cfg", text), *words)


@case
def a_conversion_is_taken_and_its_status_tells_what_changes():
    ended = converted(LISTEN.format(port=80) + " balance leastconn\n")
    same((ended.status, ended.err), (0, ""))
    same(run("check", file("c.cfg", ended.out)).out, "ok servers 1\n")
    ended = converted("frontend f\n mode http\n bind :80\n option forwardfor\n default_backend b\nbackend b\n mode http\n server a h:1\n server c h:2\n")
    same(ended.status, 6)
    expect("line 4: option forwardfor: " in ended.err, ended.err)
    same(run("check", file("c.cfg", ended.out)).out, "ok servers 2\n")


@case
def a_conversion_that_comes_to_nothing_says_why():
    two = "frontend f\n mode http\n bind :80\n default_backend b\nbackend b\n mode http\n server a h:1\n"
    for words, said in (((), None), (("--frontend", "zz"), "there are: f"), (("--backend", "zz"), "there are: b")):
        ended = converted(two if words else "global\n", *words)
        same((ended.status, ended.out), (3, ""))
        expect(ended.err.startswith("no listen comes of it") and (said or "") in ended.err, ended.err)


def main():
    right = 0
    for one in CASES:
        try:
            one()
            right += 1
        except (Wrong, subprocess.TimeoutExpired, IndexError, TypeError) as wrong:
            print(f"{one.__name__.replace('_', ' ')}: {wrong}")
    print(f"{right} of {len(CASES)}")
    return right != len(CASES)


if __name__ == "__main__":
    FOLDER = pathlib.Path(tempfile.mkdtemp())
    FOLDER.chmod(0o755)
    try:
        PROGRAM = find_program(FOLDER)
        sys.exit(main())
    finally:
        shutil.rmtree(FOLDER)
