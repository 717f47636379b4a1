#!/usr/bin/env python3
"""access_log.py PROGRAM FOLDER [REQUESTS]: the logs of a proxy that runs (`run --access-log`, `--event-log`).

Starts PROGRAM before servers of this script, and compares what its logs say with what went over real sockets: each field of
a line, halog, JSON, files that are opened anew, a full disk, a reader that hangs, and REQUESTS requests whose lines are joined
with the window reports.
Prints a line a case and `N of M`, and exits with 1 where one failed."""
import bisect
import collections
import datetime
import json
import os
import shutil
import socket
import subprocess
import sys
import threading
import time

PROGRAM, FOLDER = sys.argv[1:3]
REQUESTS = int(sys.argv[3]) if len(sys.argv) > 3 else 100000
PROXY, SERVER, DEAD, KEEPING = 18560, 18561, 18562, 18563
os.makedirs(FOLDER, exist_ok=True)
LOG, EVENTS = os.path.join(FOLDER, "access.log"), os.path.join(FOLDER, "events.log")
CONTROL = os.path.join(FOLDER, "control.sock")
CASES = []


def case(function):
    CASES.append(function)
    return function


def answer_one(client):
    """Answers each request by its target: /slow after a while, /cut with half a body, /hang never."""
    with client:
        held = b""
        while True:
            while b"\r\n\r\n" not in held:
                more = client.recv(65536)
                if not more:
                    return
                held += more
            head, _, held = held.partition(b"\r\n\r\n")
            target = head.split(b" ")[1]
            if target.startswith(b"/hang"):
                time.sleep(30)
                return
            if target.startswith(b"/cut"):
                client.sendall(b"HTTP/1.1 200 OK\r\nContent-Length: 9\r\n\r\nhalf")
                return
            if target.startswith(b"/close"):
                return
            time.sleep(0.2 if target.startswith(b"/slow") else 0.0)
            status = b"404 Not Found" if target.startswith(b"/none") else b"200 OK"
            client.sendall(b"HTTP/1.1 " + status + b"\r\nContent-Length: 2\r\nConnection: close\r\n\r\nok")
            return


def server():
    listener = socket.create_server(("127.0.0.1", SERVER), backlog=1024)
    while True:
        client, _ = listener.accept()
        threading.Thread(target=answer_one, args=(client,), daemon=True).start()


class Proxy:
    def __init__(self, *words, lines="", servers=None, log=LOG, events=EVENTS, stdout=subprocess.PIPE):
        path = os.path.join(FOLDER, "log.cfg")
        servers = servers or [f"server a 127.0.0.1:{SERVER} maxconn 1"]
        with open(path, "w") as file:
            file.write(f"listen w\n bind 127.0.0.1:{PROXY}\n timeout client 1s\n timeout server 1s\n timeout connect 1s\n"
                       f" timeout queue 30s\n{lines}" + "".join(f" {server}\n" for server in servers))
        for file in (LOG, EVENTS):
            if os.path.exists(file):
                os.remove(file)
        logs = (["--access-log", log] if log else []) + (["--event-log", events] if events else [])
        self.process = subprocess.Popen([PROGRAM, "run", path, "--stop-with-stdin", *logs, *words],
                                        stdin=subprocess.PIPE, stdout=stdout, stderr=subprocess.PIPE)
        self.said = self.process.stderr.readline()

    def __enter__(self):
        return self

    def __exit__(self, *_):
        if self.process.poll() is None:
            self.process.kill()
        self.process.communicate()

    def stop(self):
        """Ends it in an orderly way: its status and its standard output."""
        self.process.stdin.close()
        self.process.stdin = None
        out, errors = self.process.communicate(timeout=60)
        self.errors = errors.decode()
        return self.process.returncode, (out or b"").decode()


def ctl(*words):
    done = subprocess.run([PROGRAM, "ctl", CONTROL, *words], capture_output=True, text=True, timeout=20)
    return done.returncode, done.stdout


def until(condition, seconds=10):
    since = time.time()
    while not condition():
        assert time.time() - since < seconds, "in vain"
        time.sleep(0.01)


def ask(target="/", extra=b"", half=False, wait=True):
    """One request on a connection of its own: the client's port and what came."""
    with socket.create_connection(("127.0.0.1", PROXY)) as client:
        port = client.getsockname()[1]
        client.sendall(b"GET " + target.encode() + b" HTTP/1.1\r\nHost: h\r\n" + extra + (b"" if half else b"\r\n"))
        if not wait:
            time.sleep(0.1)
            return port, b""
        got = b""
        client.settimeout(20)
        while True:
            try:
                more = client.recv(65536)
            except OSError:
                break
            if not more:
                break
            got += more
        return port, got


class Line:
    """A line of text, by its fields."""

    def __init__(self, text):
        head, _, rest = text.partition('"')
        self.request, _, rest = rest.partition('"')
        words = head.split()
        self.time, self.client, self.server = words[0], words[5], words[8]
        self.spans = [int(span) for span in words[9].split("/")]
        self.status, self.sent, self.ended = int(words[10]), int(words[11]), words[14]
        self.conns, self.queues = words[15].split("/"), words[16].split("/")
        self.more = dict(word.split("=", 1) for word in rest.split())


def lines(path=None):
    with open(path or LOG) as file:
        return [Line(line) for line in file if " request " in line]


def millis(moment):
    """Of a wall clock, since the Unix epoch."""
    return round(datetime.datetime.fromisoformat(moment.replace("Z", "+00:00")).timestamp() * 1000)


def by_port(port):
    found = [line for line in lines() if line.client.endswith(f":{port}")]
    assert len(found) == 1, (port, len(found))
    return found[0]


def equal(got, wanted, what=""):
    assert got == wanted, f"{what}: {got!r} and not {wanted!r}"


@case
def a_request_served_at_once():
    with Proxy() as proxy:
        port, got = ask('/a"b')
        equal(proxy.stop()[0], 0)
    line = by_port(port)
    equal((line.request, line.status, line.server, line.ended), ("GET /a#22b HTTP/1.1", 200, "out/a", "----"))
    equal((line.sent, int(line.more["read"])), (len(got), len(b'GET /a"b HTTP/1.1\r\nHost: h\r\n\r\n')))
    equal((line.more["queue"], line.more["waited"], line.more["late"], line.more["overtakers"]), ("direct", "0", "0", "0"))
    equal((line.more["class"], line.more["offset"], line.more["ticket"], line.more["window"]), ("0", "0", "1", "1"))
    equal(line.queues, ["0", "0"])
    now = datetime.datetime.now(datetime.timezone.utc)
    told = datetime.datetime.fromisoformat(line.time.replace("Z", "+00:00"))
    assert abs((now - told).total_seconds()) < 5, line.time


@case
def requests_that_wait_and_one_that_is_overtaken():
    rules = " http-request set-priority-offset int(2000) if { path_beg /slow-late }\n"
    with Proxy(lines=rules) as proxy:
        results = {}

        def one(name, target):
            results[name] = ask(target)[0]
        threads = []
        for name, target in (("first", "/slow"), ("late", "/slow-late"), ("soon", "/slow-soon")):
            threads.append(threading.Thread(target=one, args=(name, target)))
            threads[-1].start()
            time.sleep(0.05)
        for thread in threads:
            thread.join()
        proxy.stop()
    late, soon = by_port(results["late"]), by_port(results["soon"])
    equal((late.more["queue"], late.more["overtakers"], late.queues), ("*", "1", ["0", "1"]))
    equal((soon.more["queue"], soon.more["overtakers"], soon.queues), ("*", "0", ["0", "0"]))
    assert 250 <= int(late.more["waited"]) <= 700, late.more
    equal(int(late.more["late"]), int(late.more["waited"]) - 2000)
    assert abs(late.spans[1] - int(late.more["waited"])) <= 20, (late.spans, late.more)


@case
def servers_that_fail():
    servers = [f"server a 127.0.0.1:{SERVER}", f"server d 127.0.0.1:{DEAD}"]
    rules = " retries 2\n option redispatch\n use-server d if { path_beg /dead }\n"
    with Proxy(lines=rules, servers=servers) as proxy:
        dead, _ = ask("/dead")
        none, _ = ask("/none")
        close, got = ask("/close")
        cut, _ = ask("/cut")
        hang, _ = ask("/hang")
        proxy.stop()
    line = by_port(dead)
    equal((line.status, line.server, line.conns[4]), (200, "out/a", "+" + line.conns[4].lstrip("+")), "redispatched")
    assert int(line.conns[4]) >= 1, line.conns
    equal((by_port(none).status, by_port(none).ended), (404, "----"))
    equal((by_port(close).status, by_port(close).ended), (502, "SH--"), "closed by its server")
    equal((by_port(cut).status, by_port(cut).ended), (200, "SD--"), "cut off by its server")
    equal((by_port(hang).status, by_port(hang).ended), (502, "sH--"), "timeout server")


@case
def a_server_that_is_not_there():
    with Proxy(lines=" retries 1\n", servers=[f"server d 127.0.0.1:{DEAD} maxconn 1"]) as proxy:
        port, _ = ask("/")
        proxy.stop()
    line = by_port(port)
    equal((line.status, line.ended, line.more["left"], line.conns[4]), (503, "SC--", "retries", "1"))


@case
def clients_that_leave_or_ask_badly():
    with Proxy() as proxy:
        with socket.create_connection(("127.0.0.1", PROXY)) as client:
            bad = client.getsockname()[1]
            client.sendall(b"no request\r\n\r\n")
            client.recv(4096)
        half, _ = ask("/half", half=True)
        busy = threading.Thread(target=ask, args=("/slow",))
        busy.start()
        time.sleep(0.05)
        with socket.create_connection(("127.0.0.1", PROXY)) as client:
            gone = client.getsockname()[1]
            client.setsockopt(socket.SOL_SOCKET, socket.SO_LINGER, b"\1\0\0\0\0\0\0\0")
            client.sendall(b"GET /gone HTTP/1.1\r\nHost: h\r\n\r\n")
            time.sleep(0.05)
        busy.join()
        socket.create_connection(("127.0.0.1", PROXY)).close()
        proxy.stop()
    equal((by_port(bad).status, by_port(bad).ended, by_port(bad).request), (400, "PR--", "<BADREQ>"))
    equal(by_port(half).ended, "cR--", "timeout client")
    equal((by_port(gone).ended, by_port(gone).more["left"]), ("CQ--", "aborted"))
    equal(len(lines()), 4, "who asks for nothing has no line")


@case
def a_queue_that_is_too_slow():
    with Proxy(lines=" timeout queue 100ms\n") as proxy:
        busy = threading.Thread(target=ask, args=("/slow",))
        busy.start()
        time.sleep(0.05)
        port, _ = ask("/")
        busy.join()
        proxy.stop()
    line = by_port(port)
    equal((line.status, line.ended, line.more["left"], line.server), (503, "sQ--", "timeout", "out/<NOSRV>"))


@case
def two_requests_on_one_connection():
    with Proxy("--keep-alive") as proxy:
        with socket.create_connection(("127.0.0.1", PROXY)) as client:
            port = client.getsockname()[1]
            for target in (b"/one", b"/two"):
                client.sendall(b"GET " + target + b" HTTP/1.1\r\nHost: h\r\n\r\n")
                got = b""
                while not got.endswith(b"ok"):
                    got += client.recv(4096)
                time.sleep(0.3)
        proxy.stop()
    found = [line for line in lines() if line.client.endswith(f":{port}")]
    equal([line.request for line in found], ["GET /one HTTP/1.1", "GET /two HTTP/1.1"])
    assert all(line.spans[4] < 200 for line in found), [line.spans for line in found]
    equal([line.sent for line in found], [len(got)] * 2)


@case
def halog_reads_it():
    if not shutil.which("halog"):
        return "no halog here"
    with Proxy() as proxy:
        for _ in range(20):
            ask("/x")
        ask("/none")
        proxy.stop()
    with open(LOG) as file:
        told = subprocess.run(["halog", "-srv"], stdin=file, capture_output=True, text=True).stdout
    words = told.split("\n")[1].split()
    equal((words[0], words[2], words[4]), ("out/a", "20", "1"), "server, 2xx and 4xx")
    with open(LOG) as file:
        told = subprocess.run(["halog", "-st"], stdin=file, capture_output=True, text=True).stdout
    equal(sorted(told.split("\n")[:2]), ["200 20", "404 1"])
    return None


@case
def lines_of_json():
    with Proxy("--access-log-format", "json") as proxy:
        port, got = ask("/j")
        proxy.stop()
    with open(LOG) as file:
        values = [json.loads(line) for line in file]
    equal(len(values), 1)
    value = values[0]
    equal((value["client"], value["method"], value["target"], value["version"]), (f"127.0.0.1:{port}", "GET", "/j", "HTTP/1.1"))
    equal((value["status"], value["sent"], value["termination"], value["direct"], value["ticket"]), (200, len(got), "--", True, 1))


@case
def lines_in_the_order_in_which_requests_ended():
    """Requests one after the other on connections of their own, which several loops accept: more than the scribe reads at once."""
    count = 3000
    with Proxy("--loops", "4") as proxy:
        for number in range(count):
            ask(f"/{number}")
        equal(proxy.stop()[0], 0)
    equal([line.request.split()[1] for line in lines()], [f"/{number}" for number in range(count)])


@case
def standard_output_has_whole_lines():
    with Proxy(log="-") as proxy:
        for _ in range(50):
            ask("/o")
        status, out = proxy.stop()
    equal(status, 0)
    told = out.split("\n")
    equal(len([line for line in told if " request " in line]), 50)
    assert told[-2].startswith("server a up direct"), told[-2]


@case
def files_that_are_opened_anew_under_load():
    for number in range(1, 4):
        for path in (LOG, EVENTS):
            if os.path.exists(f"{path}.{number}"):
                os.remove(f"{path}.{number}")
    answers, over = [], threading.Event()

    def client():
        while not over.is_set():
            answers.append(ask("/r")[1][9:12])
    with Proxy("--control", CONTROL, servers=[f"server a 127.0.0.1:{SERVER} maxconn 4"]) as proxy:
        threads = [threading.Thread(target=client) for _ in range(8)]
        for thread in threads:
            thread.start()
        for number in range(1, 4):
            time.sleep(0.3)
            for path in (LOG, EVENTS):
                os.rename(path, f"{path}.{number}")
            equal(ctl("reopen"), (0, "ok reopening\n"))
            until(lambda: os.path.exists(LOG) and os.path.exists(EVENTS))
            grown = os.path.getsize(f"{LOG}.{number}")
            until(lambda: os.path.getsize(LOG))
            equal(os.path.getsize(f"{LOG}.{number}"), grown, "nothing more comes into the old file")
        equal(ctl("limit", "a", "5")[0], 0)
        over.set()
        for thread in threads:
            thread.join()
        equal(proxy.stop()[0], 0)
    files = [f"{LOG}.{number}" for number in range(1, 4)] + [LOG]
    told = [lines(path) for path in files]
    assert all(told), [len(some) for some in told]
    for path, some in zip(files, told):
        with open(path) as file:
            text = file.read()
        equal((text.count("\n"), text[-1:]), (len(some), "\n"), "whole lines")
    tickets = [int(line.more["ticket"]) for some in told for line in some]
    equal(sorted(tickets), list(range(1, len(answers) + 1)), "each request once, over all files")
    for before, after in zip(told, told[1:]):
        assert before[-1].time <= after[-1].time, "later lines stand in the later file"
    events = []
    for path in [f"{EVENTS}.{number}" for number in range(1, 4)] + [EVENTS]:
        with open(path) as file:
            events.append([line.split(" ", 2)[2].strip() for line in file])
    equal((events[0][0], events[3][-1], "limit a 5" in events[3]), ("started", "stopped", True))
    return f"{len(answers)} requests, {', '.join(str(len(some)) for some in told)} lines"


@case
def a_folder_that_is_gone():
    folder = os.path.join(FOLDER, "gone")
    for path in (folder, folder + ".away"):
        shutil.rmtree(path, ignore_errors=True)
    os.makedirs(folder)
    path = os.path.join(folder, "access.log")
    with Proxy("--control", CONTROL, log=path) as proxy:
        ask("/before")
        os.rename(folder, folder + ".away")
        ctl("reopen")
        time.sleep(0.2)
        ask("/behind")
        equal(proxy.stop()[0], 0)
    assert f"{path}: not opened anew: No such file or directory" in proxy.errors, proxy.errors
    equal([line.request.split()[1] for line in lines(os.path.join(folder + ".away", "access.log"))], ["/before", "/behind"])
    assert not os.path.exists(path), "no folder is made"


@case
def nothing_to_open_anew():
    with Proxy("--control", CONTROL, log=None, events=None) as proxy:
        status, text = ctl("reopen")
        equal((status, text[:25]), (1, "error: no log goes to a f"))
        equal(ask("/")[1][:12], b"HTTP/1.1 200")
        equal(proxy.stop()[0], 0)
    with Proxy("--control", CONTROL, log="-", events=None) as proxy:
        ask("/one")
        status, text = ctl("reopen")
        equal((status, text[:6]), (1, "error:"))
        ask("/two")
        status, out = proxy.stop()
    equal((status, [line.split('"')[1].split()[1] for line in out.split("\n") if " request " in line]), (0, ["/one", "/two"]))
    with Proxy("--control", CONTROL, log="-") as proxy:
        os.remove(EVENTS)
        equal(ctl("reopen"), (0, "ok reopening\n"))
        until(lambda: os.path.exists(EVENTS))
        ask("/three")
        status, out = proxy.stop()
    equal((status, out.count(" request ")), (0, 1), "standard output goes on")


@case
def a_file_that_is_copied_and_cut_back():
    """As logrotate's copytruncate does it: what comes later stands at the beginning, and no zeros before it."""
    with Proxy() as proxy:
        for _ in range(30):
            ask("/copied")
        until(lambda: len(lines()) == 30)
        shutil.copyfile(LOG, LOG + ".1")
        os.truncate(LOG, 0)
        for _ in range(7):
            ask("/later")
        equal(proxy.stop()[0], 0)
    with open(LOG, "rb") as file:
        assert b"\0" not in file.read(), "a hole"
    equal((len(lines(LOG + ".1")), [line.request for line in lines()]), (30, ["GET /later HTTP/1.1"] * 7))


@case
def a_file_that_ends_amid_a_line():
    """As one ends whose writer was cut off: its last line is ended first, also where the file is opened anew."""
    path = os.path.join(FOLDER, "amid.log")
    for said in (b"", b"whole\n", b"cut o"):
        with open(path, "wb") as file:
            file.write(said)
        with Proxy("--control", CONTROL, log=path, events=None) as proxy:
            ask("/one")
            until(lambda: len(lines(path)) == 1)
            os.rename(path, path + ".1")
            with open(path, "wb") as file:
                file.write(said)
            equal(ctl("reopen"), (0, "ok reopening\n"))
            ask("/two")
            equal(proxy.stop()[0], 0)
        for name, target in ((path + ".1", "/one"), (path, "/two")):
            with open(name, "rb") as file:
                rows = file.read().split(b"\n")
            equal(rows[:-2], [said.strip()] if said else [], said)
            equal((lines(name)[0].request.split()[1], rows[-1]), (target, b""), said)


@case
def a_full_disk():
    with Proxy(log="/dev/full") as proxy:
        equal([ask("/f")[1][:12] for _ in range(5)], [b"HTTP/1.1 200"] * 5)
        time.sleep(0.1)
        equal(proxy.stop()[0], 0)


@case
def a_disk_that_fills_amid_a_line():
    folder = os.path.join(FOLDER, "small")
    os.makedirs(folder, exist_ok=True)
    if subprocess.run(["mount", "-t", "tmpfs", "-o", "size=16k", "tmpfs", folder], capture_output=True).returncode:
        return "no tmpfs here"
    try:
        path = os.path.join(folder, "access.log")
        with Proxy(log=path) as proxy:
            for _ in range(120):
                equal(ask("/full")[1][:12], b"HTTP/1.1 200")
            time.sleep(0.1)
            with open(path) as file:
                told = file.read()
            assert told.endswith("\n") and 0 < told.count("\n") < 120, told.count("\n")
            os.truncate(path, 0)
            ask("/again")
            equal(proxy.stop()[0], 0)
        with open(path) as file:
            again = file.read()
        kept = again.count(" request ")
        lost = sum(int(line.split()[-1]) for line in again.split("\n") if " lost " in line)
        equal(told.count(" request ") + kept + lost + sum(int(line.split()[-1]) for line in told.split("\n") if " lost " in line), 121)
    finally:
        subprocess.run(["umount", folder])
    return None


@case
def a_reader_that_hangs():
    path = os.path.join(FOLDER, "pipe")
    if os.path.exists(path):
        os.remove(path)
    os.mkfifo(path)
    with Proxy("--access-log-format", "json", log=path, servers=[f"server a 127.0.0.1:{SERVER}"]) as proxy:
        for _ in range(400):
            equal(ask("/p")[1][:12], b"HTTP/1.1 200")
        begun = time.time()
        equal(proxy.stop()[0], 0)
        assert time.time() - begun < 10, time.time() - begun
    os.remove(path)


@case
def a_reader_that_comes_late():
    """Nobody reads for so long that lines are left out: those that come and the count of the others are all."""
    path = os.path.join(FOLDER, "pipe")
    if os.path.exists(path):
        os.remove(path)
    os.mkfifo(path)
    with Proxy(log=path, servers=[f"server a 127.0.0.1:{SERVER}"]) as proxy:
        for _ in range(500):
            equal(ask("/" + "p" * 4000)[1][:12], b"HTTP/1.1 200")
        got, over = [], threading.Event()

        def read():
            reader = os.open(path, os.O_RDONLY | os.O_NONBLOCK)
            while True:
                last = over.is_set()
                try:
                    some = os.read(reader, 1 << 16)
                except BlockingIOError:
                    some = b""
                got.append(some)
                if last and not some:
                    break
                time.sleep(0 if some else 0.05)
            os.close(reader)
        reader = threading.Thread(target=read)
        reader.start()
        until(lambda: b" lost " in b"".join(got[-3:]))
        ask("/last")
        equal(proxy.stop()[0], 0)
        over.set()
        reader.join()
    os.remove(path)
    told = b"".join(got).decode().split("\n")
    lost = sum(int(line.split()[-1]) for line in told if " lost " in line)
    kept = sum(" request " in line and "window=1" in line for line in told)
    equal((kept + lost, told[-1], lost > 0), (501, "", True))
    return f"{lost} of 501 left out"


@case
def each_that_is_told_something_by_a_stop_has_a_line():
    """Who waits, also outside, is told 503; who is served by a server that hangs is cut off, and told nothing."""
    with Proxy("--control", CONTROL, "--places", "6", servers=[f"server a 127.0.0.1:{SERVER} maxconn 2"],
               lines=" timeout server 20s\n") as proxy:
        results = []
        threads = [threading.Thread(target=lambda: results.append(ask("/hang"))) for _ in range(20)]
        for thread in threads:
            thread.start()
        until(lambda: json.loads(ctl("state", "--json")[1])["waiting"] == 18)
        equal(ctl("stop", "--within", "200")[0], 0)
        for thread in threads:
            thread.join()
        equal(proxy.process.wait(10), 0)
    equal(collections.Counter(got[9:12] for _, got in results), {b"503": 18, b"": 2})
    for port, got in results:
        line = by_port(port)
        equal((line.status, line.sent), (int(got[9:12] or -1), len(got)))
        assert line.ended == ("PH--" if not got else line.ended), line.ended
    equal(len(lines()), 20)


@case
def events_of_a_server_and_a_queue():
    servers = [f"server a 127.0.0.1:{SERVER} maxconn 1", f"server d 127.0.0.1:{DEAD} check inter 100ms fall 2 rise 2"]
    with Proxy(servers=servers, lines=" use-server a if { path_beg /slow }\n") as proxy:
        time.sleep(0.5)
        threads = [threading.Thread(target=ask, args=("/slow",)) for _ in range(3)]
        for thread in threads:
            thread.start()
        time.sleep(1.2)
        for thread in threads:
            thread.join()
        proxy.stop()
    with open(EVENTS) as file:
        words = [line.split(" ", 2)[2].strip() for line in file]
    equal(words[:2], ["started", f"listening 127.0.0.1:{PROXY}"])
    assert "server d down: 2 checks failed in a row, the last: connection refused" in words, words
    assert "queue a fills" in words, words
    equal(words[-1], "stopped")


def soak_client(rounds, results):
    """So many requests one after the other, by turns of three offsets; what each was told."""
    for number in range(rounds):
        results.append(ask(f"/k{number % 3}")[1][9:12])


ONE = [f"server a 127.0.0.1:{SERVER} maxconn 6"]
RULES = "".join(f" http-request set-priority-{kind} if {{ path {path} }}\n" for kind, path in (("offset int(20)", "/k1"), ("class int(1)", "/k2")))




def soak(requests, *words, rules=RULES, servers=None):
    """So many requests of 32 clients, in two classes, with two offsets: the lines of them, and what was printed."""
    with Proxy(*words, lines=rules, servers=servers or ONE) as proxy:
        codes, threads = [], []
        for _ in range(32):
            results = []
            codes.append(results)
            threads.append(threading.Thread(target=soak_client, args=(requests // 32, results)))
            threads[-1].start()
        for thread in threads:
            thread.join()
        status, out = proxy.stop()
    equal(status, 0)
    assert "windows not printed" not in proxy.errors, proxy.errors
    told = lines()
    codes = [int(code) for results in codes for code in results]
    equal(len(told), len(codes), "a line a request")
    equal(collections.Counter(line.status for line in told), collections.Counter(codes))
    equal(sorted(int(line.more["ticket"]) for line in told), list(range(1, len(codes) + 1)))
    return told, out


def stays_of(told):
    """The lines of those that waited, by window, queue and class."""
    found = {}
    for line in told:
        if line.more["queue"] != "direct":
            found.setdefault((int(line.more["window"]), line.more["queue"], int(line.more["class"])), []).append(line)
    return found


def join(told, out):
    """What the lines say against what the reports say."""
    given, reports, windows = reports_in(out)
    waited = [line for line in told if line.more["queue"] != "direct"]
    for name, counts in given.items():
        own = [line.more["queue"] == "direct" for line in told if line.server == f"out/{name}"]
        equal((own.count(True), own.count(False)), counts, f"direct and granted of {name}")
    equal(sum(sum(counts) for counts in given.values()), len(told), "all that servers were given")
    offsets, classes = {"/k0": 0, "/k1": 20, "/k2": 0}, {"/k0": 0, "/k1": 0, "/k2": 1}
    for line in told:
        target = line.request.split()[1]
        line.waited, line.late, line.due = int(line.more["waited"]), int(line.more["late"]), millis(line.more["due"])
        equal((int(line.more["offset"]), int(line.more["class"])), (offsets[target], classes[target]), "what the rules decide")
        equal(line.waited, line.late + offsets[target], f"ticket {line.more['ticket']}: waited, and late by its offset")
        line.slot = line.due + line.late
        if line.more["queue"] == "direct":
            equal((line.waited, line.more["overtakers"], line.queues), (0, "0", ["0", "0"]), "direct")
            continue
        ahead = {"*": line.queues[1], line.server[4:]: line.queues[0]}
        line.ahead = int(ahead.pop(line.more["queue"]))
        equal(list(ahead.values()), ["0"], "those before it in a queue in which it wasn't")
    found = stays_of(told)
    equal(set(found), set(reports), "queues and classes")
    equal({key: len(stays) for key, stays in found.items()}, {key: report["granted"] for key, report in reports.items()}, "stays")
    equal({key: max(line.late for line in stays) for key, stays in found.items()},
          {key: report["worst"] for key, report in reports.items()}, "worst lateness")
    bases = set()
    for key, report in reports.items():
        by_ticket = {int(line.more["ticket"]): line for line in found[key]}
        critical = [by_ticket[ticket] for ticket in report["critical"]]
        last = critical[-1]
        equal(len(set(report["critical"])), len(critical), f"{key}: each critical one once")
        equal(last.late, report["worst"], f"{key}: its last critical one")
        bases.add(last.due - report["due"])
        assert all(line.due <= last.due for line in critical), f"{key}: due by {report['due']}"
        assert all(before.slot <= after.slot for before, after in zip(critical, critical[1:])), f"{key}: in the order of slots"
        within = {ticket for ticket, line in by_ticket.items() if critical[0].slot < line.slot < last.slot}
        assert within <= set(report["critical"]), f"{key}: the slots between are those of critical ones"
        greatest = max(line.waited for line in found[key])
        assert report["worst"] <= greatest <= report["worst"] + 20, f"{key}: the greatest wait, {greatest}"
    assert len(bases) <= 1, f"one clock: {bases}"
    for number, (begun, ended) in windows.items():
        if begun:
            for key in found:
                if key[0] == number:
                    slots = [line.slot for line in found[key]]
                    # The clock is read right behind the end: a slot that another thread gives in between is of the next window, and earlier.
                    assert begun - 50 <= min(slots) and max(slots) <= ended, f"{key}: {begun} to {ended}, {min(slots)} to {max(slots)}"
    join_overtakers(waited, found)
    with open(EVENTS) as file:
        events = [line.split() for line in file]
    ended = [(int(words[3]), millis(words[0])) for words in events if words[2] == "window"]
    equal([number for number, _ in ended], sorted(windows), "windows that ended")
    for number, moment in ended:
        assert not windows[number][1] or 0 <= moment - windows[number][1] <= 5000, (number, moment, windows[number])
    return f"{len(told)} requests, {len(waited)} waited, {len(windows) + 1} windows"


def join_overtakers(waited, found):
    """Who went before it is counted anew by slots and tickets. Slots of one millisecond have an order that lines don't tell."""
    slots = {key: sorted((line.slot, int(line.more["ticket"])) for line in stays) for key, stays in found.items()}
    for line in waited:
        ticket, window = int(line.more["ticket"]), int(line.more["window"])
        begun = line.slot - line.waited
        ahead = collections.Counter()
        for key, pairs in slots.items():
            if key[:2] == (window, line.more["queue"]):
                first, behind = bisect.bisect_left(pairs, (begun, 0)), bisect.bisect_left(pairs, (line.slot + 1, 0))
                for slot, other in pairs[first:behind]:
                    sure = begun < slot < line.slot
                    ahead.update({("ahead", sure): other != ticket})
                    if key[2] == int(line.more["class"]):
                        ahead.update({("overtakers", sure): other > ticket})
        for what, count in (("overtakers", int(line.more["overtakers"])), ("ahead", line.ahead)):
            least, most = ahead[(what, True)], ahead[(what, True)] + ahead[(what, False)]
            assert least <= count <= most, f"ticket {ticket}: {what} {count}, and not {least} to {most}"


@case
def a_soak_agrees_with_the_reports():
    return join(*soak(REQUESTS))


@case
def a_soak_of_short_windows():
    return join(*soak(REQUESTS // 10, "--window", "250"))


@case
def a_soak_of_servers_with_queues_of_their_own():
    servers = [f"server a 127.0.0.1:{SERVER} maxconn 3", f"server b 127.0.0.1:{SERVER} maxconn 3"]
    rules = RULES + " use-server b if { path /k1 }\n"
    told, out = soak(REQUESTS // 10, "--window", "1000", rules=rules, servers=servers)
    equal({line.more["queue"] for line in told} - {"direct"}, {"*", "b"})
    return join(told, out)


def reports_in(out):
    """What was given at once and after a wait by each server, the report of each window, queue and class, and when each window began and ended."""
    given, reports, pending, windows, window = {}, {}, [], {}, None
    for line in out.split("\n"):
        words = line.split()
        if not words:
            continue
        if words[0] == "window":
            window = int(words[1])
            windows[window] = (millis(words[3]), millis(words[5])) if len(words) > 2 else (None, None)
        elif words[0] == "server":
            given[words[1]] = (int(words[4]), int(words[6]))
            window = None
        elif words[0] == "queue":
            pending.append((window, words))
    last = 1 + max(windows, default=0)
    for number, words in pending:
        fields = dict(zip(words[0:14:2], words[1:14:2]))
        report = {name: int(value) for name, value in fields.items() if name != "queue"}
        at = words.index("critical")
        report["critical"] = [int(ticket) for ticket in words[at + 1:]]
        reports[(number or last, fields["queue"], report["class"])] = report
    return given, reports, windows


def keep_one(client):
    with client:
        head = b""
        while b"\r\n\r\n" not in head:
            some = client.recv(65536)
            if not some:
                return
            head += some
        try:
            if b"/halfhead" in head:
                client.sendall(b"HTTP/1.1 200 OK\r\nContent-Le")
                return
            time.sleep(0.2 if b"/slow" in head else 0)
            client.sendall(b"HTTP/1.1 200 OK\r\nContent-Length: 2\r\n\r\nok")
        except OSError:
            return


def keeping():
    """A server whose answers let a client stay."""
    listener = socket.create_server(("127.0.0.1", KEEPING), backlog=1024)
    while True:
        client, _ = listener.accept()
        threading.Thread(target=keep_one, args=(client,), daemon=True).start()


def raw(*bytes_sent, pause=0.0):
    """One connection on which these are sent: its port and all that came."""
    with socket.create_connection(("127.0.0.1", PROXY)) as client:
        port = client.getsockname()[1]
        client.settimeout(20)
        got = b""
        try:
            for number, some in enumerate(bytes_sent):
                time.sleep(pause if number else 0)
                client.sendall(some)
            while more := client.recv(65536):
                got += more
        except OSError:
            pass
        return port, got


HEAD = b" HTTP/1.1\r\nHost: h\r\n"


@case
def requests_that_come_at_once_have_times_of_their_own():
    with Proxy("--keep-alive", "--keep-alive-timeout", "300", servers=[f"server k 127.0.0.1:{KEEPING}"]) as proxy:
        port, _ = raw((b"GET /slow" + HEAD + b"\r\n") * 3)
        proxy.stop()
    found = [line for line in lines() if line.client.endswith(f":{port}")]
    equal(len(found), 3)
    for line in found:
        assert 190 <= line.spans[4], line.spans


@case
def a_bad_request_behind_another_has_a_line():
    with Proxy("--keep-alive", servers=[f"server k 127.0.0.1:{KEEPING}"]) as proxy:
        port, got = raw(b"GET /x" + HEAD + b"\r\nno request\r\n\r\n")
        proxy.stop()
    equal((got.count(b" 200 OK"), got.count(b" 400 Bad")), (1, 1))
    equal([line.status for line in lines() if line.client.endswith(f":{port}")], [200, 400])


@case
def who_is_dismissed_by_a_stop_had_no_timeout():
    with Proxy("--control", CONTROL, lines=" timeout server 20s\n") as proxy:
        results = []
        threads = [threading.Thread(target=lambda: results.append(ask("/hang"))) for _ in range(6)]
        for thread in threads:
            thread.start()
        until(lambda: json.loads(ctl("state", "--json")[1])["waiting"] == 5)
        ctl("stop", "--within", "100")
        for thread in threads:
            thread.join()
    equal(collections.Counter(line.ended for line in lines()), {"PQ--": 5, "PH--": 1})


@case
def a_head_that_is_no_whole_one_is_no_body():
    """502 was told: nothing of an answer's body went on."""
    with Proxy(servers=[f"server k 127.0.0.1:{KEEPING}"]) as proxy:
        port, got = raw(b"GET /halfhead" + HEAD + b"\r\n")
        proxy.stop()
    equal((by_port(port).status, by_port(port).ended), (502, "SH--"))


@case
def a_body_of_the_client_that_is_none_is_not_its_servers_fault():
    with Proxy() as proxy:
        port, got = raw(b"POST /slow" + HEAD + b"Transfer-Encoding: chunked\r\n\r\n", b"ZZ\r\n", pause=0.1)
        proxy.stop()
    equal(by_port(port).status, 400)
    assert by_port(port).ended[0] in "PC", by_port(port).ended


@case
def lost_events_are_counted():
    folder = os.path.join(FOLDER, "small")
    os.makedirs(folder, exist_ok=True)
    if subprocess.run(["mount", "-t", "tmpfs", "-o", "size=16k", "tmpfs", folder], capture_output=True).returncode:
        return "no tmpfs here"
    try:
        path = os.path.join(folder, "events.log")
        with Proxy("--control", CONTROL, log=None, events=path) as proxy:
            with open(os.path.join(folder, "ballast"), "wb") as file:
                file.write(b"x" * 8192)
            with socket.socket(socket.AF_UNIX) as client:
                client.connect(CONTROL)
                for number in range(300):
                    client.sendall(f"limit a {1 + number % 2}\n".encode())
                    client.recv(4096)
            time.sleep(0.2)
            os.remove(os.path.join(folder, "ballast"))
            for number in (7, 8):
                ctl("limit", "a", str(number))
                time.sleep(0.2)
            proxy.stop()
        with open(path) as file:
            text = file.read()
        lost = sum(int(line.split()[-1]) for line in text.split("\n") if " lost " in line)
        equal(text.count(" limit a ") + lost, 302)
    finally:
        subprocess.run(["umount", folder])
    return None


@case
def the_count_of_lost_lines_is_never_lost():
    """The disk has room for a short line, and not for the line that says how many were lost."""
    folder = os.path.join(FOLDER, "small")
    os.makedirs(folder, exist_ok=True)
    if subprocess.run(["mount", "-t", "tmpfs", "-o", "size=16k", "tmpfs", folder], capture_output=True).returncode:
        return "no tmpfs here"
    try:
        path = os.path.join(folder, "access.log")
        with Proxy(log=path) as proxy:
            for _ in range(60):
                ask("/" + "x" * 1500)
            time.sleep(0.2)
            with open(path) as file:
                text = file.read()
            room = 4096 - len(text) % 4096 - (len(text.split("\n")[-2]) + 1 - 1501)
            assert room > 60, "tried in vain: too little room is left by chance"
            ask("/" + "y" * (room - 30))
            time.sleep(0.2)
            subprocess.run(["mount", "-o", "remount,size=256k", folder], check=True)
            ask("/z")
            time.sleep(0.2)
            ask("/z")
            proxy.stop()
        with open(path) as file:
            text = file.read()
        equal(text.count(" request ") + sum(int(line.split()[-1]) for line in text.split("\n") if " lost " in line), 63)
    finally:
        subprocess.run(["umount", folder])
    return None


@case
def what_is_lost_to_the_end_is_told():
    with Proxy(log="/dev/full") as proxy:
        for _ in range(5):
            ask("/f")
        proxy.stop()
    assert "5" in proxy.errors, ("on standard error", proxy.errors)


@case
def standard_output_has_whole_lines_also_where_its_reader_hangs_at_the_end():
    reader, writer = os.pipe()
    with Proxy(log="-", stdout=writer) as proxy:
        os.close(writer)
        for _ in range(60):
            ask("/" + "o" * 3000)
        proxy.process.stdin.close()
        proxy.process.stdin = None
        time.sleep(3)
        got = b""
        while more := os.read(reader, 65536):
            got += more
        proxy.process.wait(10)
    os.close(reader)
    for line in got.decode().split("\n"):
        assert not line or line.startswith(("server a up", "queue * class")) or (" request " in line and "window=1" in line), line[:60] + ".." + line[-60:]


def main():
    threading.Thread(target=server, daemon=True).start()
    threading.Thread(target=keeping, daemon=True).start()
    time.sleep(0.2)
    good = 0
    only = os.environ.get("ONLY")
    cases = [function for function in CASES if not only or only in function.__name__]
    for function in cases:
        try:
            said = function()
            good += 1
            print(f"{function.__name__}: ok{' (' + said + ')' if said else ''}", flush=True)
        except Exception as error:  # a failed case is told, and the others go on
            print(f"{function.__name__}: {type(error).__name__} {error}", flush=True)
    print(f"{good} of {len(cases)}")
    sys.exit(0 if good == len(cases) else 1)


main()
