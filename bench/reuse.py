#!/usr/bin/env python3
"""reuse.py PROGRAM FOLDER: servers' connections that are used for further requests (`run --reuse`).

Starts PROGRAM before servers of this script, which number their connections, and note and judge each byte that they read on them.
Prints a line a case and `N of M`, and exits with 1 where one failed. It takes about half a minute, most of it asleep."""
import collections
import contextlib
import os
import random
import re
import socket
import struct
import subprocess
import sys
import threading
import time
import zlib

PROGRAM, FOLDER = sys.argv[1:3]
WANTED = sys.argv[3:]
PROXY, SERVERS = 18560, {b"a": 18561, b"b": 18562, b"c": 18563}
os.makedirs(FOLDER, exist_ok=True)
CONTROL = os.path.join(FOLDER, "reuse.sock")
CASES = []
LINE = re.compile(rb"[A-Z]+ /[!-~]* HTTP/1\.1")
FIELD = re.compile(rb"([!#$%&'*+.^_`|~0-9A-Za-z-]+): ?([ -~\t]*)")


def case(function):
    CASES.append(function)
    return function


class Left(Exception):
    """The other end closed, and this came of what was waited for."""


class Wire:
    """Reads a connection."""

    def __init__(self, connection):
        self.connection, self.data = connection, b""

    def more(self):
        try:
            got = self.connection.recv(65536)
        except (ConnectionResetError, BrokenPipeError):
            raise Left("reset", self.data) from None
        if not got:
            raise Left("end", self.data)
        self.data += got

    def until(self, mark):
        while mark not in self.data:
            self.more()
        front, self.data = self.data.split(mark, 1)
        return front

    def exactly(self, count):
        while len(self.data) < count:
            self.more()
        front, self.data = self.data[:count], self.data[count:]
        return front

    def rest(self):
        with contextlib.suppress(Left):
            while True:
                self.more()
        return self.data

    def chunks(self):
        body = b""
        while True:
            line = self.until(b"\r\n")
            assert re.fullmatch(rb"[0-9A-Fa-f]+", line), line
            if int(line, 16) == 0:
                assert self.until(b"\r\n") == b"", "trailers"
                return body
            body += self.exactly(int(line, 16))
            assert self.exactly(2) == b"\r\n", "a chunk's end"


def fields_of(lines):
    fields = collections.defaultdict(list)
    for line in lines:
        match = FIELD.fullmatch(line)
        assert match, line
        fields[match[1].lower()].append(match[2])
    return fields


# --- servers ---------------------------------------------------------------------------------------------------------------------


class Request:
    def __init__(self, method, target, fields, body):
        self.method, self.target, self.fields, self.body = method, target, fields, body
        path, _, query = target.partition(b"?")
        self.how = path.split(b"/")[2] if path.count(b"/") > 2 else b"length"
        self.words = dict(word.split(b"=") for word in query.split(b"&") if word)

    def number(self, name, default):
        return float(self.words.get(name, default))


class Connection(Wire):
    def __init__(self, number, connection):
        super().__init__(connection)
        self.number, self.requests = number, []
        self.opened, self.ended, self.end = time.monotonic(), None, None

    def read(self):
        """A request, strictly; None at an end between two. Its body is read unless it is to be answered early."""
        try:
            while not self.data:
                self.more()
        except Left as left:
            self.end = left.args[0]
            return None
        lines = self.until(b"\r\n\r\n").split(b"\r\n")
        assert LINE.fullmatch(lines[0]), lines[0]
        method, target, _ = lines[0].split(b" ")
        fields = fields_of(lines[1:])
        assert len(fields[b"host"]) == 1, "hosts"
        lengths, codings = fields[b"content-length"], fields[b"transfer-encoding"]
        assert len(lengths) + len(codings) <= 1, "framings"
        request = Request(method, target, fields, b"")
        if request.how == b"early":
            return request
        if lengths:
            assert re.fullmatch(rb"[0-9]+", lengths[0]), lengths
            request.body = self.exactly(int(lengths[0]))
        elif codings:
            assert codings == [b"chunked"], codings
            request.body = self.chunks()
        return request


class Server:
    """Answers as targets say: /SERVER/HOW/NUMBER?n=LENGTH&d=SECONDS. Each answer names its request, its server and its connection."""

    def __init__(self, name=b"a"):
        self.name, self.port = name, SERVERS[name]
        self.lock = threading.Lock()
        self.connections, self.faults = [], []
        self.seen, self.cuts, self.answered = collections.Counter(), collections.Counter(), collections.Counter()
        self.busy = self.most_busy = self.open = self.most_open = 0
        self.pick = random.Random(1)

    def __enter__(self):
        self.listener = socket.create_server(("127.0.0.1", self.port), backlog=512)
        threading.Thread(target=self.accept, daemon=True).start()
        return self

    def __exit__(self, *_):
        self.listener.shutdown(socket.SHUT_RDWR)
        self.listener.close()
        for connection in self.connections:
            with contextlib.suppress(OSError):
                connection.connection.shutdown(socket.SHUT_RDWR)

    def accept(self):
        while True:
            try:
                stream, _ = self.listener.accept()
            except OSError:
                return
            stream.setsockopt(socket.IPPROTO_TCP, socket.TCP_NODELAY, 1)
            with self.lock:
                connection = Connection(len(self.connections) + 1, stream)
                self.connections.append(connection)
                self.open += 1
                self.most_open = max(self.most_open, self.open)
            threading.Thread(target=self.serve, args=(connection,), daemon=True).start()

    def serve(self, connection):
        try:
            while True:
                request = connection.read()
                if request is None:
                    break
                with self.lock:
                    connection.requests.append(request)
                    self.seen[request.target] += 1
                    self.busy += 1
                    self.most_busy = max(self.most_busy, self.busy)
                try:
                    stays = self.answer(connection, request, len(connection.requests) > 1)
                finally:
                    self.free(request)
                if not stays:
                    break
        except Left as left:
            # The proxy left amid a request: it does so where a client does.
            connection.end = "amid " + left.args[0]
        except (OSError, ValueError):
            connection.end = "broken"
        except AssertionError as error:
            self.faults.append((connection.number, error.args, connection.data[:200]))
        connection.ended = time.monotonic()
        with self.lock:
            self.open -= 1
        connection.connection.close()

    def free(self, request):
        """No request is under way any more from here on: what comes next tells the proxy so."""
        with self.lock:
            if not getattr(request, "freed", False):
                request.freed = True
                self.busy -= 1

    def reset(self, connection):
        connection.connection.setsockopt(socket.SOL_SOCKET, socket.SO_LINGER, struct.pack("ii", 1, 0))

    def body_of(self, request):
        return request.target + b"|" + b"%x" % zlib.crc32(request.body) + b"|" + b"x" * int(request.number(b"n", 0))

    def answer(self, connection, request, used):
        """False: the connection is to be closed."""
        say, how = connection.connection.sendall, request.how
        time.sleep(request.number(b"d", 0))
        names = b"X-Server: %s\r\nX-Connection: %d\r\n" % (self.name, connection.number)
        body = self.body_of(request)
        measured = b"HTTP/1.1 200 OK\r\n%sContent-Length: %d\r\n\r\n" % (names, len(body))
        told = b"" if request.method == b"HEAD" else body
        if used and how.startswith(b"cut") and how != b"cut-amid":
            with self.lock:
                self.cuts[request.target] += 1
            if how == b"cut-reset":
                self.reset(connection)
            elif how == b"cut-byte":
                say(measured[:1])
                time.sleep(0.02)
            elif how == b"cut-head":
                say(measured + told[:5])
                time.sleep(0.02)
            return False
        if how == b"cut-twice":
            with self.lock:
                self.cuts[request.target] += 1
            return False
        with self.lock:
            self.answered[request.target] += 1
        if how == b"cut-amid":
            say(measured + told[:5])
            return False
        if how == b"early":
            say(b"HTTP/1.1 413 Content Too Large\r\n%sContent-Length: 0\r\n\r\n" % names)
            time.sleep(0.3)
            return False
        self.free(request)
        if how == b"chunked":
            say(b"HTTP/1.1 200 OK\r\n%sTransfer-Encoding: chunked\r\n\r\n" % names)
            while told:
                count = self.pick.randint(1, max(1, len(told)))
                say(b"%x\r\n%s\r\n" % (count, told[:count]))
                told = told[count:]
            if request.method != b"HEAD":
                say(b"0\r\n\r\n")
        elif how == b"hint":
            say(b"HTTP/1.1 103 Early Hints\r\nLink: </x>\r\n\r\n" + measured + told)
        elif how == b"end":
            say(b"HTTP/1.1 200 OK\r\n%s\r\n" % names + told)
            return False
        elif how == b"close":
            say(measured.replace(b"\r\n\r\n", b"\r\nConnection: close\r\n\r\n") + told)
        elif how == b"old":
            say(measured.replace(b"HTTP/1.1", b"HTTP/1.0") + told)
        elif how == b"old-stays":
            say(measured.replace(b"HTTP/1.1", b"HTTP/1.0").replace(b"\r\n\r\n", b"\r\nConnection: keep-alive\r\n\r\n") + told)
        elif how in (b"204", b"304"):
            say(b"HTTP/1.1 %s Such\r\n%s\r\n" % (how, names))
        elif how == b"behind":
            say(measured + told + self.evil())
        elif how == b"behind-204":
            say(b"HTTP/1.1 204 No Content\r\n%s\r\n" % names + self.evil())
        elif how == b"behind-late":
            say(measured + told)
            time.sleep(0.03)
            say(self.evil())
        elif how == b"byte-late":
            say(measured + told)
            time.sleep(0.03)
            say(b"\n")
        else:
            say(measured + told)
        if how in (b"shut", b"shut-reset"):
            time.sleep(request.number(b"s", 0))
            if how == b"shut-reset":
                self.reset(connection)
            return False
        if how == b"half":
            connection.connection.shutdown(socket.SHUT_WR)
        return True

    @staticmethod
    def evil():
        return b"HTTP/1.1 200 OK\r\nX-Connection: 666\r\nContent-Length: 4\r\n\r\nevil"

    def settles_at(self, count, seconds=1):
        """Whether so many connections are open before long."""
        until = time.monotonic() + seconds
        while time.monotonic() < until and self.open != count:
            time.sleep(0.005)
        return self.open == count

    def wait_ended(self, number, seconds=1):
        """Whether a connection ends within so many seconds."""
        until = time.monotonic() + seconds
        while time.monotonic() < until:
            if self.connections[number - 1].ended is not None:
                return True
            time.sleep(0.005)
        return False


# --- the proxy and its clients ---------------------------------------------------------------------------------------------------


class Proxy:
    def __init__(self, *words, limit="maxconn 64", names=(b"a",), more=" retries 0\n", loops=1, reuses=True, pins=True):
        path = os.path.join(FOLDER, "reuse.cfg")
        with open(path, "w") as file:
            file.write(f"listen w\n bind 127.0.0.1:{PROXY}\n timeout client 5s\n timeout server 5s\n timeout connect 5s\n{more}")
            for name in names:
                if len(names) > 1 and pins:
                    file.write(f" use-server {name.decode()} if {{ path_beg /{name.decode()}/ }}\n")
            for name in names:
                file.write(f" server {name.decode()} 127.0.0.1:{SERVERS[name]} {limit}\n")
        words = [*(["--reuse"] if reuses else []), *(["--loops", str(loops)] if loops else []), *words]
        self.process = subprocess.Popen([PROGRAM, "run", path, "--control", CONTROL, *words],
                                        stdout=subprocess.DEVNULL, stderr=subprocess.PIPE)
        line = self.process.stderr.readline()
        assert line.startswith(b"listening"), line

    def __enter__(self):
        return self

    def __exit__(self, *_):
        self.process.kill()
        self.process.wait()
        self.process.stderr.close()

    def stop(self):
        return subprocess.run([PROGRAM, "ctl", CONTROL, "stop"], stdout=subprocess.DEVNULL, timeout=8).returncode


class Answer:
    def __init__(self, status, fields, body):
        self.status, self.fields, self.body = status, fields, body
        self.connection = int(fields[b"x-connection"][0]) if fields[b"x-connection"] else None
        self.server = fields[b"x-server"][0] if fields[b"x-server"] else None


class Client(Wire):
    def __init__(self):
        stream = socket.create_connection(("127.0.0.1", PROXY))
        stream.settimeout(10)
        stream.setsockopt(socket.IPPROTO_TCP, socket.TCP_NODELAY, 1)
        super().__init__(stream)

    def __enter__(self):
        return self

    def __exit__(self, *_):
        self.connection.close()

    def send(self, text):
        self.connection.sendall(text)

    def answer(self, method=b"GET"):
        while True:
            lines = self.until(b"\r\n\r\n").split(b"\r\n")
            status, fields = int(lines[0].split(b" ")[1]), fields_of(lines[1:])
            if 199 < status:
                break
        if method == b"HEAD" or status in (204, 304):
            return Answer(status, fields, b"")
        if fields[b"transfer-encoding"]:
            return Answer(status, fields, self.chunks())
        if fields[b"content-length"]:
            return Answer(status, fields, self.exactly(int(fields[b"content-length"][0])))
        return Answer(status, fields, self.rest())


def text(target, method=b"GET", body=None, extra=b""):
    if body is not None:
        extra += b"Content-Length: %d\r\n" % len(body)
    return b"%s %s HTTP/1.1\r\nHost: h\r\n%s\r\n" % (method, target, extra) + (body or b"")


def ask(target, method=b"GET", body=None, extra=b""):
    """A request of a client of its own."""
    with Client() as client:
        client.send(text(target, method, body, extra))
        answer = client.answer(method)
        if answer.body and answer.status == 200:
            assert answer.body.startswith(target + b"|"), (target, answer.body[:80])
        return answer


def all_at_once(jobs):
    """What went wrong."""
    failures = []

    def run(job):
        try:
            job()
        except Exception as error:
            failures.append(repr(error)[:300])

    threads = [threading.Thread(target=run, args=(job,), daemon=True) for job in jobs]
    for thread in threads:
        thread.start()
    for thread in threads:
        thread.join(40)
        if thread.is_alive():
            failures.append("a client hangs")
    return failures


# --- cases -----------------------------------------------------------------------------------------------------------------------


@case
def ten_use_one_connection():
    for words in ((), ("--keep-alive",), ("--forwarded-for",), ("--access-log", "/dev/null")):
        with Server() as server, Proxy(*words):
            for number in range(10):
                assert ask(b"/a/length/%d" % number).connection == 1
            assert len(server.connections) == 1 and len(server.connections[0].requests) == 10
            assert not any(request.fields[b"connection"] for request in server.connections[0].requests)
            assert not server.faults, server.faults


@case
def one_that_stays_uses_one_connection():
    with Server() as server, Proxy("--keep-alive", loops=None), Client() as client:
        for number in range(10):
            client.send(text(b"/a/length/%d" % number))
            assert client.answer().body.startswith(b"/a/length/%d|" % number)
        assert len(server.connections) == 1 and not server.faults


@case
def without_the_word_each_has_its_own():
    for words in ((), ("--keep-alive",)):
        with Server() as server, Proxy(*words, reuses=False):
            for number in range(3):
                assert ask(b"/a/length/%d" % number).connection == number + 1
                assert server.connections[number].requests[0].fields[b"connection"] == [b"close"]
                assert server.wait_ended(number + 1)


@case
def idempotent_ones_without_a_body_use_it():
    with Server() as server, Proxy():
        for method, extra in ((b"GET", b""), (b"HEAD", b""), (b"PUT", b"Content-Length: 0\r\n"), (b"PUT", b""), (b"DELETE", b""), (b"OPTIONS", b""),
                              (b"TRACE", b""), (b"GET", b"Connection: close\r\n"), (b"GET", b"Expect: 100-continue\r\n")):
            answer = ask(b"/a/length/1", method, extra=extra)
            assert answer.status == 200 and answer.connection == 1, (method, answer.status, answer.connection)
        assert not server.faults, server.faults


@case
def others_get_a_fresh_one():
    """Those with a body leave none behind: a server that doesn't read the body would take it for a request."""
    chunked = b"Transfer-Encoding: chunked\r\n"
    for method, body, extra in ((b"POST", b"abc", b""), (b"PUT", b"abc", b""), (b"PATCH", b"x", b""), (b"GET", b"abc", b""),
                                (b"DELETE", b"abc", b"")):
        with Server() as server, Proxy():
            assert ask(b"/a/length/1").connection == 1
            assert ask(b"/a/length/2", method, body, extra).connection == 2, method
            assert ask(b"/a/length/3").connection == 1, method
            assert server.wait_ended(2) and server.most_open <= 2 and not server.faults
    for method, body in ((b"POST", b""), (b"POST", None), (b"ODD", None)):
        with Server() as server, Proxy():
            assert ask(b"/a/length/1").connection == 1
            assert ask(b"/a/length/2", method, body).connection == 2, method
            # The last used is used afterwards.
            assert ask(b"/a/length/3").connection == 2, method
            assert server.most_open <= 2 and not server.faults
    with Server() as server, Proxy():
        ask(b"/a/length/1")
        with Client() as client:
            client.send(text(b"/a/length/2", b"PUT", extra=chunked) + b"3\r\nabc\r\n0\r\n\r\n")
            assert client.answer().connection == 2
        assert ask(b"/a/length/3").connection == 1 and not server.faults


@case
def answers_whose_ends_are_known_stay():
    for how in (b"length", b"chunked", b"204", b"304", b"hint"):
        for method in (b"GET", b"HEAD"):
            for words in ((), ("--keep-alive",)):
                with Server() as server, Proxy(*words):
                    first = ask(b"/a/%s/1?n=3000" % how, method)
                    assert first.connection == 1, (how, first.status)
                    assert ask(b"/a/length/2").connection == 1, (how, method)
                    assert not server.faults


@case
def a_client_of_version_1_0_lets_it_stay():
    with Server() as server, Proxy():
        for how in (b"length", b"chunked"):
            with Client() as client:
                client.send(b"GET /a/%s/1 HTTP/1.0\r\nHost: h\r\n\r\n" % how)
                assert client.answer().connection == 1, how
        assert len(server.connections) == 1 and not server.faults


@case
def other_answers_do_not_stay():
    for how in (b"end", b"close", b"old", b"old-stays"):
        with Server() as server, Proxy("--keep-alive"):
            assert ask(b"/a/%s/1" % how).connection == 1
            assert server.wait_ended(1), how
            assert ask(b"/a/length/2").connection == 2, how


@case
def an_early_answer_does_not_stay():
    for words in ((), ("--keep-alive",)):
        with Server() as server, Proxy(*words):
            with Client() as client:
                client.send(text(b"/a/early/1", b"POST", extra=b"Content-Length: 100000\r\n") + b"x" * 1000)
                answer = client.answer()
                assert answer.status == 413 and answer.connection == 1
                assert ask(b"/a/length/2").connection == 2
            assert not server.faults, server.faults


@case
def bytes_behind_an_answer_close_it():
    for how, status in ((b"behind", 200), (b"behind-204", 204), (b"behind-late", 200), (b"byte-late", 200), (b"half", 200)):
        for words in ((), ("--keep-alive",)):
            with Server() as server, Proxy(*words):
                assert ask(b"/a/%s/1" % how).status == status
                assert how not in (b"behind", b"behind-204") or ask(b"/a/length/2").connection == 2
                assert server.wait_ended(1), how
                for number in range(3):
                    answer = ask(b"/a/length/%d" % number)
                    assert answer.status == 200 and answer.connection == 2, (how, answer.status, answer.connection)
                assert not server.faults


@case
def a_server_that_closes_it_between_is_not_noticed():
    with Server() as server, Proxy("--keep-alive"):
        for how in (b"shut", b"shut-reset"):
            for wait in (0, 0.0005, 0.002, 0.01):
                for number in range(6):
                    assert ask(b"/a/%s/%d?s=%f" % (how, number, wait)).status == 200
                    time.sleep(0.02 if number % 2 else 0)
                    answer = ask(b"/a/length/%d" % number)
                    assert answer.status == 200, (how, wait, answer.status)
        assert not server.faults


@case
def one_that_breaks_before_the_answer_is_sent_anew_once():
    for how in (b"cut", b"cut-reset"):
        for method in (b"GET", b"HEAD", b"PUT"):
            with Server() as server, Proxy("--keep-alive", limit="maxconn 1"):
                assert ask(b"/a/length/0").connection == 1
                answer = ask(b"/a/%s/1" % how, method)
                assert answer.status == 200 and answer.connection == 2, (how, method, answer.status)
                assert server.seen[b"/a/%s/1" % how] == 2
                assert server.most_busy == 1 and server.settles_at(1)
                assert ask(b"/a/length/2").connection == 2


@case
def it_is_not_sent_a_third_time():
    with Server() as server, Proxy():
        for number in range(3):
            assert all(not failed for failed in all_at_once([lambda: ask(b"/a/length/0?d=0.1")] * 4))
            answer = ask(b"/a/cut-twice/%d" % number)
            assert answer.status == 502 and server.seen[b"/a/cut-twice/%d" % number] == 2, (answer.status, server.seen)


@case
def after_a_byte_of_the_answer_it_is_not_sent_anew():
    with Server() as server, Proxy():
        ask(b"/a/length/0")
        assert ask(b"/a/cut-byte/1").status == 502
        ask(b"/a/length/2")
        with Client() as client:
            client.send(text(b"/a/cut-head/3"))
            got = client.rest()
            assert got.startswith(b"HTTP/1.1 200 OK\r\n") and got.endswith(b"\r\n\r\n/a/cu"), got
        assert server.seen[b"/a/cut-byte/1"] == server.seen[b"/a/cut-head/3"] == 1
        assert ask(b"/a/length/4").status == 200


@case
def so_many_lie_unused_at_most():
    for most in (1, 2):
        for loops in (1, 4):
            with Server() as server, Proxy("--reuse-idle", str(most), loops=loops):
                for turn in range(3):
                    failures = all_at_once([lambda k=k: ask(b"/a/length/%d?d=0.1" % k) for k in range(12)])
                    assert not failures, failures[:3]
                    assert server.settles_at(most), (most, loops, server.open)
                    time.sleep(0.02)
                    assert server.open == most, (most, loops, server.open)


@case
def the_limit_holds_and_no_slot_is_lost():
    for loops in (1, 4):
        with Server() as server, Proxy("--keep-alive", limit="maxconn 2", loops=loops):
            def play(number):
                for turn in range(5):
                    how = (b"length", b"chunked", b"cut", b"shut", b"close")[(number + turn) % 5]
                    method, body = ((b"GET", None), (b"POST", b"abc"))[turn == 3 and how != b"cut"]
                    answer = ask(b"/a/%s/%d?d=0.005" % (how, 10 * number + turn), method, body)
                    assert answer.status == 200, (how, answer.status)

            failures = all_at_once([lambda k=k: play(k) for k in range(20)])
            assert not failures, failures[:3]
            assert server.most_busy == 2, server.most_busy
            since = time.monotonic()
            failures = all_at_once([lambda k=k: ask(b"/a/length/%d?d=0.5" % (900 + k)) for k in range(2)])
            assert not failures and time.monotonic() - since < 0.95, "a slot is lost"
            assert not server.faults


def most_connections(loops):
    """Clients that stay are on all loops, and ask one at a time: each loop leaves its server as many connections as requests that it may serve, at most."""
    for limit in (1, 2):
        with Server() as server, Proxy("--keep-alive", limit=f"maxconn {limit}", loops=loops), contextlib.ExitStack() as stack:
            clients = []
            assert not all_at_once([lambda: clients.append(stack.enter_context(Client()))] * 16)
            pick = random.Random(7)
            for turn in range(60):
                client = pick.choice(clients)
                method, body = ((b"GET", None), (b"POST", b"abc"))[turn % 5 == 0]
                client.send(text(b"/a/length/%d" % turn, method, body))
                assert client.answer().status == 200
            time.sleep(0.05)
            assert server.open <= limit * loops, f"{server.open} connections stay where {limit} requests may be, of {loops} loops"


@case
def a_server_has_no_more_connections_than_requests():
    most_connections(1)


@case
def nor_has_it_of_each_of_four_loops():
    most_connections(4)


@case
def a_reset_when_it_is_about_to_be_used_is_not_noticed():
    """A server, in a process of its own, whose resets come at all moments behind its answer."""
    def serve():
        pick = random.Random(3)
        while True:
            stream, _ = listener.accept()
            with stream, contextlib.suppress(OSError):
                stream.setsockopt(socket.SOL_SOCKET, socket.SO_LINGER, struct.pack("ii", 1, 0))
                if stream.recv(65536):
                    over = time.perf_counter() + pick.random() * 0.0002
                    stream.sendall(b"HTTP/1.1 200 OK\r\nContent-Length: 2\r\n\r\nok")
                    while time.perf_counter() < over:
                        pass

    listener = socket.create_server(("127.0.0.1", SERVERS[b"a"]), backlog=512)
    child = os.fork()
    if child == 0:
        try:
            serve()
        finally:
            os._exit(0)
    listener.close()
    try:
        with Proxy("--keep-alive", limit="maxconn 4"), Client() as client:
            until = time.monotonic() + 15
            for number in range(20000):
                if until < time.monotonic():
                    break
                client.send(text(b"/a/length/%d" % number))
                status = client.answer().status
                assert status == 200, f"{status} for request {number}"
    finally:
        os.kill(child, 9)
        os.waitpid(child, 0)


@case
def unused_ones_leave_descriptors_to_others():
    """Forty servers, and descriptors for twenty connections: those that lie unused make room for one that is opened."""
    with Server() as server:
        path = os.path.join(FOLDER, "many.cfg")
        with open(path, "w") as file:
            file.write(f"listen w\n bind 127.0.0.1:{PROXY}\n timeout client 5s\n timeout server 5s\n timeout connect 5s\n retries 0\n")
            for number in range(40):
                file.write(f" use-server s{number} if {{ path_beg /a/length/{number}/ }}\n")
            for number in range(40):
                file.write(f" server s{number} 127.0.0.1:{SERVERS[b'a']} maxconn 4\n")
        words = [PROGRAM, "run", path, "--loops", "1", "--reuse"]
        process = subprocess.Popen(["sh", "-c", 'ulimit -n 32; exec "$@"', "sh", *words], stdout=subprocess.DEVNULL, stderr=subprocess.PIPE)
        try:
            line = process.stderr.readline()
            assert line.startswith(b"listening"), line
            for number in range(40):
                status = ask(b"/a/length/%d/1" % number).status
                assert status == 200, f"{status} for request {number}, {server.open} connections of servers open"
        finally:
            process.kill()
            process.wait()
            process.stderr.close()


@case
def where_no_fresh_one_comes_about_its_client_is_told_at_once():
    """A used connection breaks since its server ends. A byte of the request reached it, so that no other server is tried (DECISIONS)."""
    with Server(b"b") as other:
        listener = socket.create_server(("127.0.0.1", SERVERS[b"a"]), backlog=512)

        def serve():
            stream, _ = listener.accept()
            with contextlib.suppress(Left, OSError), stream:
                connection = Connection(1, stream)
                connection.read()
                stream.sendall(b"HTTP/1.1 200 OK\r\nX-Server: a\r\nContent-Length: 0\r\n\r\n")
                connection.read()
                listener.close()

        thread = threading.Thread(target=serve, daemon=True)
        thread.start()
        with Proxy(names=(b"a", b"b"), pins=False, limit="maxconn 8", more=" retries 2\n option redispatch\n", loops=1):
            answers = []
            for number in range(3):
                since = time.monotonic()
                answers.append(ask(b"/b/length/%d" % number))
            assert [answer.server for answer in answers[:2]] == [b"a", b"b"], "the script's order of servers"
            assert answers[2].status == 503 and time.monotonic() - since < 0.8, (answers[2].status, answers[2].server)
            assert ask(b"/b/length/4").server == b"b" and not other.faults


@case
def a_server_with_one_thread_is_not_kept_from_serving():
    """A server that serves a connection to its end before it takes the next one, as many that fork do: maxconn 1 says so."""
    def serve():
        while True:
            try:
                stream, _ = listener.accept()
            except OSError:
                return
            connection = Connection(0, stream)
            with stream, contextlib.suppress(Left, OSError):
                while connection.read():
                    stream.sendall(b"HTTP/1.1 200 OK\r\nContent-Length: 2\r\n\r\nok")

    with socket.create_server(("127.0.0.1", SERVERS[b"a"]), backlog=512) as listener:
        threading.Thread(target=serve, daemon=True).start()
        with Proxy(limit="maxconn 1", loops=4):
            longest = 0
            for turn in range(8):
                def play():
                    with Client() as client:
                        client.send(text(b"/a/length/1"))
                        assert client.answer().status == 200, "not served"
                since = time.monotonic()
                failures = all_at_once([play] * 4)
                longest = max(longest, time.monotonic() - since)
                if failures or 1 < longest:
                    break
        listener.shutdown(socket.SHUT_RDWR)
        assert not failures and longest < 1, (failures[:2], longest)


@case
def a_body_that_its_server_does_not_read_becomes_nobodys_request():
    """A server that reads no body of a GET, as Python's own http.server: what a client sends there isn't to be the front of another's request."""
    def serve(stream):
        with stream, contextlib.suppress(Left, OSError):
            connection = Wire(stream)
            while True:
                target = connection.until(b"\r\n\r\n").split(b" ")[1]
                time.sleep(0.05 if b"slow" in target else 0)
                stream.sendall(b"HTTP/1.1 200 OK\r\nContent-Length: %d\r\n\r\n%s|" % (len(target) + 1, target))

    def accept():
        with contextlib.suppress(OSError):
            while True:
                threading.Thread(target=serve, args=(listener.accept()[0],), daemon=True).start()

    with socket.create_server(("127.0.0.1", SERVERS[b"a"]), backlog=512) as listener:
        threading.Thread(target=accept, daemon=True).start()
        try:
            for method in (b"GET", b"DELETE", b"OPTIONS"):
                for body in (b"GET /evil HTTP/1.1\r\nHost: h\r\nX: ", b"GET /slow-evil HTTP/1.1\r\nHost: h\r\n\r\n"):
                    with Proxy("--keep-alive"):
                        assert ask(b"/attack", method, body).status == 200
                        answer = ask(b"/victim")
                        assert answer.status == 200 and answer.body == b"/victim|", (method, answer.body)
        finally:
            listener.shutdown(socket.SHUT_RDWR)


@case
def an_unused_one_is_closed_after_some_seconds():
    with Server() as server, Proxy():
        ask(b"/a/length/1")
        since = time.monotonic()
        assert server.wait_ended(1, 9)
        assert 4.5 < time.monotonic() - since < 8, time.monotonic() - since
        assert server.connections[0].end == "end"
        assert ask(b"/a/length/2").connection == 2


@case
def a_stop_closes_unused_ones():
    for loops in (1, 4):
        with Server() as server, Proxy("--keep-alive", loops=loops) as proxy:
            assert not all_at_once([lambda k=k: ask(b"/a/length/%d?d=0.05" % k) for k in range(8)])
            with Client() as client:
                client.send(text(b"/a/length/9?d=0.8"))
                time.sleep(0.1)
                stop = threading.Thread(target=proxy.stop)
                stop.start()
                # One is served still; those that are unused are closed by now.
                assert server.settles_at(1, 0.5), server.open
                assert client.answer().status == 200
            stop.join()
            assert proxy.process.wait(5) == 0
            assert server.settles_at(0) and {connection.end for connection in server.connections} == {"end"}


@case
def each_answer_is_of_its_own_server():
    with contextlib.ExitStack() as stack:
        servers = [stack.enter_context(Server(name)) for name in SERVERS]
        stack.enter_context(Proxy("--keep-alive", names=list(SERVERS), loops=4))

        def play(seed):
            pick = random.Random(seed)
            for turn in range(15):
                name = pick.choice(list(SERVERS))
                how = pick.choice((b"length", b"chunked", b"cut", b"shut"))
                answer = ask(b"/%s/%s/%d" % (name, how, 100 * seed + turn))
                assert answer.status == 200 and answer.server == name, (name, answer.status, answer.server)

        failures = all_at_once([lambda k=k: play(k) for k in range(12)])
        assert not failures, failures[:3]
        for server in servers:
            assert not server.faults and all(target.startswith(b"/%s/" % server.name) for target in server.seen)


def each_is_answered(words, loops, requests, seed0):
    """Clients at random, one request a connection or many, some of which leave: what is told of each request is its own, and once."""
    done, lock = collections.Counter(), threading.Lock()

    def target_of(pick, number):
        how = pick.choices((b"length", b"chunked", b"hint", b"shut", b"shut-reset", b"cut", b"cut-reset", b"close"), (30, 20, 3, 5, 3, 4, 2, 3))[0]
        words = [b"n=%d" % pick.choice((0, 10, 1000, 20000, pick.randrange(70000)))]
        if how.startswith(b"shut"):
            words.append(b"s=%f" % (pick.random() * 0.004))
        return b"/a/%s/%d?%s" % (how, number, b"&".join(words))

    def request_of(pick, number):
        target, method, body, extra = target_of(pick, number), b"GET", b"", b""
        kind = pick.random()
        if kind < 0.1:
            method = b"PUT"
        elif kind < 0.3:
            method, body = pick.choice((b"POST", b"PUT")), os.urandom(pick.choice((1, 100, 30000)))
        if body and pick.random() < 0.5:
            at = pick.randrange(len(body))
            parts = [part for part in (body[:at], body[at:]) if part]
            coded = b"".join(b"%x\r\n%s\r\n" % (len(part), part) for part in parts) + b"0\r\n\r\n"
            whole = text(target, method, extra=b"Transfer-Encoding: chunked\r\n") + coded
        else:
            whole = text(target, method, body) if body else text(target, method)
        return target, whole, target + b"|%x|" % zlib.crc32(body)

    def check(client, target, begin):
        answer = client.answer()
        assert answer.status == 200, (target, answer.status)
        assert answer.body.startswith(begin), (target, answer.body[:60])
        assert len(answer.body) == len(begin) + int(target.split(b"n=")[1].split(b"&")[0]), target
        with lock:
            done[target] += 1

    def play(seed):
        pick, number = random.Random(seed0 * 1000 + seed), seed * 100000
        while number % 100000 < requests:
            count = pick.randint(1, 4) if words else 1
            asked = [request_of(pick, number + k) for k in range(count)]
            number += count
            leaves = pick.random() < 0.06
            with Client() as client:
                whole = b"".join(request for _, request, _ in asked)
                cut = pick.randrange(len(whole))
                try:
                    client.send(whole[:cut])
                    if leaves:
                        if pick.random() < 0.5:
                            client.send(whole[cut:])
                            time.sleep(pick.random() * 0.003)
                        if pick.random() < 0.5:
                            client.connection.setsockopt(socket.SOL_SOCKET, socket.SO_LINGER, struct.pack("ii", 1, 0))
                        continue
                    client.send(whole[cut:])
                    for target, _, begin in asked:
                        check(client, target, begin)
                except Left as left:
                    raise AssertionError(f"left amid {asked[0][0]}: {left.args[0]} {left.args[1][:60]}") from None

    with Server() as server, Proxy(*words, loops=loops, limit="maxconn 6") as proxy:
        failures = all_at_once([lambda k=k: play(k) for k in range(16)])
        assert not failures, (len(failures), failures[:2])
        assert proxy.process.poll() is None
        assert not server.faults, server.faults[:3]
        assert server.most_busy <= 6 + 1, server.most_busy
        for target, times in done.items():
            tries = server.seen[target]
            assert times == 1 and tries == 1 + server.cuts[target], (target, times, tries, server.cuts[target])
        total = sum(len(connection.requests) for connection in server.connections)
        assert len(server.connections) < 0.8 * total, (len(server.connections), total)
        return total


@case
def each_request_is_answered_once_by_its_own_answer():
    each_is_answered((), 4, 80, 1)


@case
def each_request_of_those_who_stay_is_answered_once():
    each_is_answered(("--keep-alive",), 4, 200, 2)


@case
def the_same_with_one_loop_and_one_unused():
    each_is_answered(("--keep-alive", "--reuse-idle", "1"), 1, 60, 3)


def main():
    good, cases = 0, [function for function in CASES if not WANTED or function.__name__ in WANTED]
    for function in cases:
        since = time.monotonic()
        try:
            function()
            good += 1
            print("ok     ", function.__name__, flush=True)
        except Exception as error:
            print("FAILED ", function.__name__ + ":", repr(error)[:300], flush=True)
        if os.environ.get("TIMES"):
            print(f"        {time.monotonic() - since:.1f} s", flush=True)
    print(f"{good} of {len(cases)}")
    sys.exit(good != len(cases))


main()
