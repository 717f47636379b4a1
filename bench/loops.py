#!/usr/bin/env python3
"""loops.py PROGRAM FOLDER: what clients, servers and operators see of the event loops.

Starts PROGRAM before servers of this script, which answer when they are told to, and tries it on real sockets: stops, limits, waits
outside, timeouts, connections that are used again, logs and numbers. The variable ONLY is a pattern: of all cases those are tried whose
names have it. Prints a line a case, and exits with 1 where one failed."""
import contextlib
import datetime
import json
import os
import re
import resource
import select
import socket
import struct
import subprocess
import sys
import threading
import time

PROGRAM, FOLDER = sys.argv[1:3]
PROXY, SERVER, OTHER, DEAD = 18690, 18691, 18692, 18693
LONG = 15
CASES = []
os.makedirs(FOLDER, exist_ok=True)
CONTROL, LOG, EVENTS = (os.path.join(FOLDER, name) for name in ("loops.sock", "requests.log", "events.log"))


def case(function):
    CASES.append(function)
    return function


def same(got, wanted, what=""):
    assert got == wanted, f"{what} {got!r} and not {wanted!r}"


def until(condition, what="in vain", seconds=LONG):
    """Waits for what a condition gives, where that is true."""
    end = time.monotonic() + seconds
    while not (found := condition()):
        assert time.monotonic() < end, what
        time.sleep(0.01)
    return found


def tries(count, attempt):
    """Where a slow machine may miss a moment, a case is tried again."""
    for left in reversed(range(count)):
        try:
            return attempt()
        except AssertionError:
            if left == 0:
                raise


# --- servers ---------------------------------------------------------------------------------------------------------------------


class Connection:
    """A connection at a server: its requests, and how it ended."""

    def __init__(self, stream):
        self.stream, self.paths, self.end, self.data = stream, [], None, b""

    def head(self):
        """The next request's head; None at the end."""
        while b"\r\n\r\n" not in self.data:
            try:
                got = self.stream.recv(65536)
            except OSError:
                self.end = "reset"
                return None
            if not got:
                self.end = "end"
                return None
            self.data += got
        head, self.data = self.data.split(b"\r\n\r\n", 1)
        return head

    def skip(self, size):
        """Reads a body."""
        while len(self.data) < size:
            got = self.stream.recv(65536)
            if not got:
                return
            self.data += got
        self.data = self.data[size:]


class Server:
    """Answers each request, those to /hold once they are let go. Each answer names its connection and its server."""

    def __init__(self, name="a", port=SERVER):
        self.name, self.port = name, port
        self.connections, self.paths, self.goes = [], [], threading.Event()
        self.listener = socket.create_server(("127.0.0.1", port), backlog=512)
        threading.Thread(target=self.accept, daemon=True).start()

    def __enter__(self):
        return self

    def __exit__(self, *_):
        self.goes.set()
        self.listener.shutdown(socket.SHUT_RDWR)
        self.listener.close()
        for connection in self.connections:
            with contextlib.suppress(OSError):
                connection.stream.shutdown(socket.SHUT_RDWR)

    def accept(self):
        while True:
            try:
                stream, _ = self.listener.accept()
            except OSError:
                return
            stream.setsockopt(socket.IPPROTO_TCP, socket.TCP_NODELAY, 1)
            self.connections.append(Connection(stream))
            threading.Thread(target=self.serve, args=(self.connections[-1],), daemon=True).start()

    def serve(self, connection):
        number = len(self.connections)
        with contextlib.suppress(OSError):
            while head := connection.head():
                path = head.split(b" ")[1].decode()
                connection.paths.append(path)
                self.paths.append(path)
                if path.endswith("/hold") or path.startswith("/hold"):
                    self.goes.wait()
                size = re.search(rb"(?i)\r\ncontent-length: *(\d+)", head)
                connection.skip(int(size.group(1)) if size else 0)
                if path.startswith("/half"):
                    connection.stream.sendall(b"HTTP/1.1 200 OK\r\nContent-Length: 10\r\n\r\nhalf")
                    continue
                if path.startswith("/wide"):
                    connection.stream.sendall(b"HTTP/1.1 200 OK\r\nContent-Length: 6000\r\n\r\n" + bytes(6000))
                    continue
                names = b"X-Connection: %d\r\nX-Server: %s\r\n" % (number, self.name.encode())
                connection.stream.sendall(b"HTTP/1.1 200 OK\r\n%sContent-Length: 2\r\n\r\nok" % names)
        with contextlib.suppress(OSError):
            connection.stream.close()

    def wait_for(self, path):
        """Waits until a request for this path has come."""
        until(lambda: path in self.paths, f"{path} never came")

    def open(self):
        return sum(connection.end is None for connection in self.connections)


# --- the proxy, its clients and its operators ------------------------------------------------------------------------------------


@contextlib.contextmanager
def files_at_most(count):
    """Who is started meanwhile has so many descriptors, where there is a number."""
    before = resource.getrlimit(resource.RLIMIT_NOFILE)
    resource.setrlimit(resource.RLIMIT_NOFILE, (count or before[0], before[1]))
    yield
    resource.setrlimit(resource.RLIMIT_NOFILE, before)


TIMES = {"client": "30s", "server": "30s", "connect": "1s", "queue": "30s"}


class Proxy:
    def __init__(self, *words, servers=(f"a 127.0.0.1:{SERVER} maxconn 1",), more="", stdin=subprocess.DEVNULL, stdout=subprocess.PIPE, loops=1,
                 files=None, before=(), **times):
        path = os.path.join(FOLDER, "loops.cfg")
        with open(path, "w", encoding="ascii") as file:
            file.write(f"listen w\n bind 127.0.0.1:{PROXY}\n")
            for name, span in {**TIMES, **times}.items():
                file.write(f" timeout {name} {span}\n" if span else "")
            file.write(more + "".join(f" server {server}\n" for server in servers))
        for name in (LOG, EVENTS):
            with contextlib.suppress(FileNotFoundError):
                os.remove(name)
        with files_at_most(files):
            self.process = subprocess.Popen([*before, PROGRAM, "run", path, "--control", CONTROL, "--loops", str(loops), *words],
                                            stdin=stdin, stdout=stdout, stderr=subprocess.PIPE)
        self.said = self.process.stderr.readline().decode()
        assert self.said.startswith("listening"), self.said

    def __enter__(self):
        return self

    def __exit__(self, *_):
        if self.process.poll() is None:
            self.process.kill()
        self.process.communicate()

    def ended(self):
        """Its status, once it has ended by itself."""
        return self.process.wait(LONG)

    def stop(self, *words):
        """Begins a stop, and waits for no more than that."""
        stop = subprocess.Popen([PROGRAM, "ctl", CONTROL, "stop", *words], stdout=subprocess.PIPE, stderr=subprocess.DEVNULL)
        assert stop.stdout.readline(), "no answer to a stop"
        return stop


def ctl(*words):
    done = subprocess.run([PROGRAM, "ctl", CONTROL, *words], capture_output=True, text=True, timeout=LONG)
    return done.returncode, done.stdout


def state():
    return json.loads(ctl("state", "--json")[1])


def wait_for_waiting(count):
    """Waits until so many requests wait."""
    until(lambda: state()["waiting"] == count, f"there never wait {count}")


def lines(path=LOG):
    with open(path, encoding="ascii") as file:
        return [json.loads(line) for line in file if line.endswith("\n")]


LOGS = ("--access-log", LOG, "--access-log-format", "json")


class Answer:
    def __init__(self, status, fields, body, size):
        self.status, self.fields, self.body, self.size = status, fields, body, size
        self.connection, self.server = int(fields.get("x-connection", 0)), fields.get("x-server")


class Client:
    def __init__(self, path=None, port=PROXY, receives=None):
        self.stream = socket.socket()
        if receives:
            self.stream.setsockopt(socket.SOL_SOCKET, socket.SO_RCVBUF, receives)
        self.stream.connect(("127.0.0.1", port))
        self.stream.settimeout(LONG)
        self.stream.setsockopt(socket.IPPROTO_TCP, socket.TCP_NODELAY, 1)
        self.data = b""
        if path:
            self.ask(path)

    def __enter__(self):
        return self

    def __exit__(self, *_):
        self.stream.close()

    def send(self, data):
        self.stream.sendall(data)

    def ask(self, path, method="GET", more=""):
        self.send(f"{method} {path} HTTP/1.1\r\nHost: h\r\n{more}\r\n".encode())

    def more(self):
        got = self.stream.recv(65536)
        assert got, f"the end behind {self.data[:80]!r}"
        self.data += got

    def answer(self):
        while b"\r\n\r\n" not in self.data:
            self.more()
        head, self.data = self.data.split(b"\r\n\r\n", 1)
        first, *rest = head.decode().split("\r\n")
        fields = {name.lower(): value.strip() for name, value in (line.split(":", 1) for line in rest)}
        size = int(fields.get("content-length", 0))
        while len(self.data) < size:
            self.more()
        body, self.data = self.data[:size], self.data[size:]
        return Answer(int(first.split(" ")[1]), fields, body, len(head) + 4 + size)

    def end(self, seconds=LONG):
        """How the connection ended: `end`, `reset`, or `open` where it didn't in time."""
        self.stream.settimeout(seconds)
        try:
            while self.stream.recv(65536):
                pass
            return "end"
        except TimeoutError:
            return "open"
        except OSError:
            return "reset"

    def reset(self):
        self.stream.setsockopt(socket.SOL_SOCKET, socket.SO_LINGER, struct.pack("ii", 1, 0))
        self.stream.close()


def ask(path="/"):
    """What a client of its own is told."""
    with Client(path) as client:
        return client.answer()


def clients(paths):
    """A client for each path, all of which leave at the end."""
    stack = contextlib.ExitStack()
    return stack, [stack.enter_context(Client(path)) for path in paths]


# --- stops -----------------------------------------------------------------------------------------------------------------------


@case
def a_stop_closes_silent_clients_of_each_loop():
    """A stop closes each client between two requests, whichever loop has it."""
    with Server(), Proxy("--keep-alive", "--keep-alive-timeout", "60000", servers=[f"a 127.0.0.1:{SERVER}"], loops=4) as proxy:
        stack, all_clients = clients([None] * 24)
        with stack:
            for client in all_clients:
                client.ask("/")
                same(client.answer().status, 200)
            proxy.stop()
            same({client.end() for client in all_clients}, {"end"})
            same(proxy.ended(), 0)


@case
def a_client_that_is_served_at_a_stop_is_closed_behind_its_answer():
    """A client whose request is under way at a stop gets its answer, and then its connection is closed."""
    with Server() as server, Proxy("--keep-alive", "--keep-alive-timeout", "60000") as proxy, Client("/hold") as client:
        server.wait_for("/hold")
        proxy.stop()
        server.goes.set()
        same(client.answer().status, 200)
        same(client.end(), "end")
        same(proxy.ended(), 0)


@case
def an_answer_behind_a_stop_says_that_the_connection_is_closed():
    """A request that is given to its server after a stop has an answer that says `Connection: close`."""
    with Server() as server, Proxy("--keep-alive") as proxy, Client("/hold"):
        server.wait_for("/hold")
        with Client("/behind") as behind:
            wait_for_waiting(1)
            proxy.stop()
            server.goes.set()
            same(behind.answer().fields.get("connection"), "close")
        same(proxy.ended(), 0)


@case
def nobody_is_accepted_behind_a_stop():
    """A stop makes the system refuse new connections, also where no client comes."""
    with Server() as server, Proxy() as proxy, Client("/hold") as client:
        server.wait_for("/hold")
        proxy.stop()

        def is_refused():
            try:
                socket.create_connection(("127.0.0.1", PROXY)).close()
            except ConnectionRefusedError:
                return True
        until(is_refused, "it still listens")
        server.goes.set()
        same(client.answer().status, 200)


@case
def the_time_of_a_stop_refuses_each_request_that_waits():
    """Each request that waits, at its place and outside, of each loop, is told 503 at the end of a stop's time, and its line says so."""
    def attempt():
        with Server() as server, Proxy(*LOGS, "--places", "4", loops=4) as proxy, Client("/hold"):
            server.wait_for("/hold")
            stack, waiting = clients(["/"] * 12)
            with stack:
                wait_for_waiting(12)
                proxy.stop("--within", "100")
                same([client.answer().status for client in waiting], [503] * 12)
            same(proxy.ended(), 0)
        same([line["termination"] for line in lines() if line["target"] == "/"], ["PQ"] * 12)
    tries(3, attempt)


@case
def the_request_at_the_first_place_is_refused_too():
    """The only request that waits, at the first of all places, is told 503 at the end of a stop's time."""
    def attempt():
        with Proxy() as proxy:
            same(ctl("pause")[0], 0)
            with Client("/") as client:
                wait_for_waiting(1)
                proxy.stop("--within", "100")
                same(client.answer().status, 503)
    tries(3, attempt)


@case
def a_request_that_comes_behind_the_refusals_is_refused():
    """A request that is whole only after the waiting ones were refused is told 503, and its line names what it asked for."""
    def attempt():
        with Server() as server, Proxy(*LOGS) as proxy, Client() as late, Client("/hold"):
            late.send(b"GET /late HTTP/1.1\r\nHost: h\r\n")
            server.wait_for("/hold")
            with Client("/waits") as waiting:
                wait_for_waiting(1)
                proxy.stop("--within", "100")
                same(waiting.answer().status, 503)
                late.send(b"\r\n")
                same(late.answer().status, 503)
            same(proxy.ended(), 0)
        same([line["status"] for line in lines() if line["target"] == "/late"], [503])
    tries(5, attempt)


@case
def no_stop_undoes_the_refusals():
    """A second stop, after the waiting requests were refused, doesn't put the end off."""
    with Server() as server, Proxy() as proxy, Client("/hold"):
        server.wait_for("/hold")
        with Client("/waits") as waiting, socket.socket(socket.AF_UNIX) as control:
            control.connect(CONTROL)
            wait_for_waiting(1)
            proxy.stop("--within", "100")
            same(waiting.answer().status, 503)
            with contextlib.suppress(OSError):
                control.sendall(b"stop\n")
            same(proxy.ended(), 0)


@case
def a_stop_returns_once_the_proxy_has_ended():
    """`ctl stop` returns only after those who were there were served."""
    with Server() as server, Proxy() as proxy, Client("/hold") as client:
        server.wait_for("/hold")
        stop = proxy.stop()
        with contextlib.suppress(subprocess.TimeoutExpired):
            stop.wait(0.5)
            raise AssertionError("it returned though a client was served")
        server.goes.set()
        same(client.answer().status, 200)
        same((stop.wait(LONG), proxy.ended()), (0, 0))


@case
def the_end_of_standard_input_cuts_nobody_off():
    """A stop by the end of standard input has no time: who is served then gets the answer."""
    with Server() as server, Proxy("--stop-with-stdin", stdin=subprocess.PIPE) as proxy, Client("/hold") as client:
        server.wait_for("/hold")
        proxy.process.stdin.close()
        proxy.process.stdin = None
        until(lambda: "stopping" in ctl("state")[1], "it never stops")
        time.sleep(0.8)
        server.goes.set()
        same(client.answer().status, 200)
        same(proxy.ended(), 0)


@case
def the_last_client_ends_a_proxy_that_is_steered():
    """A proxy with a control socket ends after the last client of `--requests`, and one whose servers are checked does."""
    checked = f"a 127.0.0.1:{SERVER} maxconn 1 check inter 100ms"
    for servers in ([f"a 127.0.0.1:{SERVER} maxconn 1"], [checked]):
        with Server(), Proxy("--requests", "2", servers=servers) as proxy:
            same([ask().status, ask().status], [200, 200])
            same(proxy.ended(), 0)


@case
def a_client_beyond_the_last_one_is_not_hung_up_on():
    """While the last clients of `--requests` are served, another one's connection stays open."""
    with Server() as server, Proxy("--requests", "1") as proxy, Client("/hold") as client:
        server.wait_for("/hold")
        with Client("/") as other:
            same(other.end(0.5), "open")
            server.goes.set()
            same(client.answer().status, 200)
        client.stream.close()
        same(proxy.ended(), 0)


# --- waits -----------------------------------------------------------------------------------------------------------------------


@case
def who_left_or_waited_too_long_outside_is_not_counted():
    """The number of waiting requests falls where a client that waits outside leaves, and where its time is over."""
    for span in (None, "1s"):
        with Server() as server, Proxy("--places", "1", more=" option abortonclose\n", connect=None, queue=span), Client("/hold"):
            server.wait_for("/hold")
            stack, waiting = clients(["/"] * 3)
            with stack:
                wait_for_waiting(3)
                if span:
                    same([client.answer().status for client in waiting], [503] * 3)
            wait_for_waiting(0)


@case
def a_crowd_outside_stops_the_accepting():
    """While as many requests wait outside as `--waiting` says, no client is accepted; then all are served."""
    with Server() as server, Proxy("--places", "1", "--waiting", "2") as proxy, Client("/hold") as first:
        server.wait_for("/hold")
        stack, others = clients(["/"] * 6)
        with stack:
            wait_for_waiting(2)
            time.sleep(0.2)
            same((state()["waiting"], state()["clients"]), (2, 3))
            server.goes.set()
            same(first.answer().status, 200)
            same([client.answer().status for client in others], [200] * 6)
        same(proxy.process.poll(), None)


@case
def who_waited_outside_is_served_by_its_own_server():
    """A request that is pinned to a server and waits outside for a place is given to that server."""
    servers = [f"a 127.0.0.1:{SERVER} maxconn 9", f"b 127.0.0.1:{OTHER} maxconn 9"]
    with Server() as one, Server("b", OTHER), Proxy("--places", "1", servers=servers, more=" use-server b if { path_beg /b }\n"):
        with Client("/hold") as first:
            until(lambda: one.paths or ctl("state")[1].count("served 1"), "the first never came")
            stack, waiting = clients(["/b"] * 6)
            with stack:
                wait_for_waiting(6)
                one.goes.set()
                same(first.answer().status, 200)
                same([client.answer().server for client in waiting], ["b"] * 6)


@case
def each_queue_has_its_own_length():
    """The state tells how many requests wait in a server's own queue, apart from the backend's."""
    servers = [f"a 127.0.0.1:{SERVER} maxconn 1", f"b 127.0.0.1:{OTHER} maxconn 1"]
    with Server(), Server("b", OTHER), Proxy(servers=servers, more=" use-server b if { path_beg /b }\n"):
        same(ctl("pause")[0], 0)
        stack, _ = clients(["/b", "/b", "/"])
        with stack:
            def told():
                now = state()
                return (now["waiting"], [server["waiting"] for server in now["servers"]])
            until(lambda: sum(told()[1]) + told()[0] == 3, "three never wait")
            own = told()
            same(ctl("resume")[0], 0)
        assert own in ((1, [0, 2]), (3, [0, 0])), own


@case
def a_server_that_comes_back_in_the_pause_is_tried():
    """A request waits before it tries the server again that has just failed it: one that is there by then serves it."""
    with Proxy(more=" retries 1\n", connect="5s"), Client("/") as client:
        time.sleep(0.3)
        with Server():
            same(client.answer().status, 200)


@case
def a_request_that_waits_at_its_place_has_its_time():
    """The only request that waits for a slot is told 503 after `timeout queue`."""
    with Server() as server, Proxy(queue="500ms"), Client("/hold"):
        server.wait_for("/hold")
        same(ask().status, 503)


@case
def a_request_that_was_put_back_has_its_time():
    """A request whose server failed waits for another slot no longer than `timeout queue`."""
    servers = [f"d 127.0.0.1:{DEAD} maxconn 1 weight 0", f"a 127.0.0.1:{SERVER} maxconn 1"]
    more = " retries 1\n option redispatch\n use-server d if { path_beg /dead }\n"
    with Server() as server, Proxy(*LOGS, servers=servers, more=more, queue="1s"), Client("/hold"):
        server.wait_for("/hold")
        with Client("/dead") as client:
            same(client.answer().status, 503)
        line = until(lines, "it has no line")[0]
        same((line["server"], line["left"]), ("d", "timeout"))


@case
def the_time_of_a_request_begins_outside():
    """A request that waited outside, and whose server then failed, waits no longer than `timeout queue` from its arrival."""
    servers = [f"d 127.0.0.1:{DEAD} maxconn 1 weight 0", f"a 127.0.0.1:{SERVER} maxconn 1"]
    more = " retries 1\n option redispatch\n option abortonclose\n use-server d if { path_beg /dead }\n use-server a if { path_beg /hold }\n"

    def attempt():
        with Server() as server, Proxy(*LOGS, "--places", "2", servers=servers, more=more, queue="1500ms"), Client("/hold"):
            server.wait_for("/hold")
            with Client() as second, Client() as client:
                second.ask("/hold/2")
                until(lambda: sum(it["waiting"] for it in state()["servers"]) + state()["waiting"] == 1, "the second never waits")
                client.ask("/dead")
                since = time.monotonic()
                time.sleep(1.1)
                second.reset()
                same(client.answer().status, 503)
                passed = time.monotonic() - since
            until(lambda: any(line["target"] == "/dead" for line in lines()), "it has no line")
            line, = (line for line in lines() if line["target"] == "/dead")
            same((line["server"], line["status"], line["termination"]), ("d", 503, "SC"))
            assert line["wait_ms"] > 1000 and line["waited"] < 500, line
            assert 1.4 < passed < 2.2, passed
    tries(3, attempt)


@case
def another_server_is_tried_at_once():
    """A request whose server failed makes no pause before another server."""
    servers = [f"d 127.0.0.1:{DEAD} maxconn 1", f"a 127.0.0.1:{SERVER} maxconn 1"]
    more = " retries 1\n option redispatch\n use-server d if { path_beg /dead }\n"

    def attempt():
        since = time.monotonic()
        same(ask("/dead").server, "a")
        passed = time.monotonic() - since
        assert passed < 0.8, passed
    with Server(), Proxy(servers=servers, more=more, connect="5s"):
        tries(3, attempt)


# --- names of servers ------------------------------------------------------------------------------------------------------------


HOSTS, RESOLVER = (os.path.join(FOLDER, name) for name in ("hosts", "resolv.conf"))

# What starts a program that reads these files in place of the system's.
MOUNTS = 'mount --bind "$0" /etc/hosts && mount --bind "$1" /etc/resolv.conf && shift && exec "$@"'
BESIDE = ("unshare", "--mount", "sh", "-c", MOUNTS, HOSTS, RESOLVER)


def name_is_at(address):
    """Sets where the name of a server is, if anywhere: in the same file, which is mounted. No name server is there."""
    with open(HOSTS, "w", encoding="ascii") as file:
        file.write(f"{address} moves.test\n" if address else "127.0.0.1 localhost\n")
    with open(RESOLVER, "w", encoding="ascii") as file:
        file.write("nameserver 127.0.0.9\n")


def runs_beside(*words):
    """What a program prints that reads these files; None where the system doesn't let it, or it failed."""
    done = subprocess.run([*BESIDE, *words], capture_output=True, text=True, timeout=LONG, check=False)
    return done.stdout if done.returncode == 0 else None


@contextlib.contextmanager
def name_server(pause):
    """Answers each question for a name with 127.0.0.1, so many seconds later."""
    listener = socket.socket(socket.AF_INET, socket.SOCK_DGRAM)
    listener.bind(("127.0.0.9", 53))

    def answer(question, asker):
        end = question.index(b"\0", 12) + 5
        kind = question[end - 4:end - 2]
        found = b"\xc0\x0c" + kind + b"\0\1\0\0\0\0\0\4" + socket.inet_aton("127.0.0.1") if kind == b"\0\1" else b""
        counts = struct.pack(">HHHH", 1, 1 if found else 0, 0, 0)
        with contextlib.suppress(OSError):
            listener.sendto(question[:2] + b"\x81\x80" + counts + question[12:end] + found, asker)

    def serve():
        while not over.is_set():
            with contextlib.suppress(TimeoutError):
                threading.Timer(pause, answer, listener.recvfrom(512)).start()
    over = threading.Event()
    listener.settimeout(0.05)
    thread = threading.Thread(target=serve, daemon=True)
    thread.start()
    try:
        yield
    finally:
        over.set()
        thread.join()
        listener.close()


@case
def the_start_waits_for_the_first_look_up():
    """A server whose name is found some time after the start is there for the first request."""
    name_is_at(None)
    if runs_beside("true") is None:
        return

    def attempt():
        with Server(), Proxy(before=BESIDE, servers=[f"a slow.test:{SERVER} maxconn 1"], more=" retries 0\n"):
            same(ask().status, 200)
    with name_server(0.2):
        if "127.0.0.1" not in (runs_beside(sys.executable, "-c", "import socket; print(socket.getaddrinfo('slow.test', 1))") or ""):
            return
        tries(5, attempt)


@case
def a_name_is_looked_up_behind_a_failed_connect():
    """A server whose name has another address meanwhile is found there by the request whose connect failed."""
    name_is_at("127.0.0.2")
    if runs_beside("true") is None:
        return
    with Server(), Proxy(before=BESIDE, servers=[f"a moves.test:{SERVER} maxconn 1"], more=" retries 9\n", connect="100ms"):
        same(ask().status, 503)
        name_is_at("127.0.0.1")
        same(ask().status, 200)


@case
def a_name_is_looked_up_at_each_check():
    """A server whose name gets an address, or another one, comes up there, and the event log says why it was down before."""
    name_is_at("127.0.0.2")
    if runs_beside("true") is None:
        return
    for address, how in (("127.0.0.2", "connection refused"), (None, "its name has no address")):
        name_is_at(address)
        with Server(), Proxy("--event-log", EVENTS, before=BESIDE, servers=[f"a moves.test:{SERVER} maxconn 1 check inter 50ms fall 2"]):
            until(lambda: any(line.startswith("server a down") for line in events()), "it is never down")
            same(events()[-1], f"server a down: 2 checks failed in a row, the last: {how}")
            name_is_at("127.0.0.1")
            until(lambda: "server a up: 2 checks answered in a row" in events(), "it is never found")
            same(ask().status, 200)


# --- timeouts --------------------------------------------------------------------------------------------------------------------


# Descriptors for so few clients that a client soon has the number of an earlier one.
FEW = 170


@case
def a_time_ends_with_its_client():
    """A timeout that ran for a client that was answered ends no later client's wait."""
    with Server() as server, Proxy(servers=[f"a 127.0.0.1:{SERVER} maxconn 9"], files=FEW, client="900ms"):
        same({ask().status for _ in range(50)}, {200})
        stack, held = clients(["/hold"] * 9)
        with stack:
            until(lambda: server.paths.count("/hold") == 9, "they never come")
            time.sleep(1)
            server.goes.set()
            same([client.answer().status for client in held], [200] * 9)


@case
def clients_beyond_the_descriptors_are_served_later():
    """Clients that find no descriptor wait at the listener, and are served once others have left."""
    with Server(), Proxy(servers=[f"a 127.0.0.1:{SERVER} maxconn 9"], files=FEW):
        stack, silent = clients([None] * 60)
        with stack:
            until(lambda: state()["clients"] > 5, "nobody is accepted")
            time.sleep(0.3)
            most = state()["clients"]
            assert most < 60, most
            others, late = clients(["/"] * 3)
            with others:
                time.sleep(0.1)
                for client in silent:
                    client.stream.close()
                same([client.answer().status for client in late], [200] * 3)


@case
def who_still_sends_lingers_on():
    """A client that was refused and goes on sending isn't reset before it has ended."""
    with Proxy(), Client() as client:
        client.send(b"BAD\r\n\r\n")
        same(client.answer().status, 400)
        for _ in range(14):
            client.send(b"x")
            time.sleep(0.2)
        client.stream.shutdown(socket.SHUT_WR)
        same(client.end(), "end")


@case
def a_time_ends_with_its_wait():
    """The timeout of a client whose request came to wait ends no later client's wait."""
    servers = [f"a 127.0.0.1:{SERVER} maxconn 1", f"b 127.0.0.1:{OTHER} maxconn 9"]
    more = " use-server b if { path_beg /b }\n use-server a if { path_beg /hold }\n"
    with Server() as server, Server("b", OTHER) as other, Proxy(servers=servers, more=more, files=FEW, client="1s"), Client("/hold") as first:
        server.wait_for("/hold")
        stack, waiting = clients([None] * 8)
        with stack:
            for client in waiting:
                client.send(b"GET /hold HTTP/1.1\r\n")
            until(lambda: state()["clients"] == 9, "they never come")
            time.sleep(0.1)
            for client in waiting:
                client.send(b"Host: h\r\n\r\n")
            until(lambda: sum(it["waiting"] for it in state()["servers"]) + state()["waiting"] == 8, "they never wait")
            same({ask("/b").status for _ in range(25)}, {200})
            others, held = clients(["/b/hold"] * 4)
            with others:
                until(lambda: other.paths.count("/b/hold") == 4, "they never come")
                time.sleep(1.1)
                other.goes.set()
                same([client.answer().status for client in held], [200] * 4)
            server.goes.set()
            same([client.answer().status for client in (first, *waiting)], [200] * 9)


@case
def a_time_ends_where_its_client_goes_outside():
    """The timeout of a client whose request came to wait outside ends no later client's wait."""
    servers = [f"a 127.0.0.1:{SERVER} maxconn 9", f"b 127.0.0.1:{OTHER} maxconn 9"]
    more = " use-server b if { path_beg /hold/b }\n use-server a if { path_beg / }\n"
    with Server() as server, Server("b", OTHER) as other, Proxy("--places", "8", servers=servers, more=more, files=FEW, client="1s"):
        stack, slow = clients([None] * 8)
        with stack:
            since = time.monotonic()
            for client in slow:
                client.send(b"GET / HTTP/1.1\r\n")
            until(lambda: state()["clients"] == 8, "they never come")
            first, held = clients(["/hold"] * 8)
            with first:
                until(lambda: len(server.paths) == 8, "they never come")
                for client in slow:
                    client.send(b"Host: h\r\n\r\n")
                until(lambda: state()["waiting"] == 8, "they never wait")
                server.goes.set()
                same({client.answer().status for client in (*held, *slow)}, {200})
        second, last = clients(["/hold/b"] * 8)
        with second:
            until(lambda: len(other.paths) == 8, "they never come")
            time.sleep(max(0.3, since + 1.4 - time.monotonic()))
            other.goes.set()
            same([client.answer().status for client in last], [200] * 8)


@case
def a_time_ends_with_its_use():
    """The time of an unused connection that is used again ends no later client's wait."""
    with Server() as server, Proxy("--reuse", servers=[f"a 127.0.0.1:{SERVER} maxconn 9"], files=FEW):
        same({ask().status for _ in range(60)}, {200})
        stack, held = clients(["/hold"] * 9)
        with stack:
            until(lambda: server.paths.count("/hold") == 9, "they never come")
            time.sleep(5.5)
            server.goes.set()
            same([client.answer().status for client in held], [200] * 9)


# --- servers' connections --------------------------------------------------------------------------------------------------------


@case
def a_connection_that_is_given_up_is_reset():
    """A server whose client left, or whose answer stopped amid, gets a reset, and no plain end."""
    for path in ("/hold", "/half"):
        with Server() as server, Proxy(server="300ms" if path == "/half" else "30s"):
            with Client(path) as client:
                server.wait_for(path)
                if path == "/half":
                    while b"half" not in client.data:
                        client.more()
                    until(lambda: server.connections[0].end, "it stays")
                    same(server.connections[0].end, "reset", path)
                else:
                    client.reset()
                    same(until(lambda: other_end(server.connections[0].stream), "it stays"), "reset", path)


def other_end(stream):
    """How the other end went, by what the system tells at once; None where it is there."""
    try:
        return None if stream.recv(1, socket.MSG_PEEK | socket.MSG_DONTWAIT) else "end"
    except BlockingIOError:
        return None
    except OSError:
        return "reset"


@case
def connections_that_a_server_closes_are_not_counted():
    """A server that closed as many unused connections as may be kept has the next one used again."""
    with Server() as server, Proxy("--reuse", "--reuse-idle", "1"):
        for _ in range(3):
            number = ask().connection
            server.connections[number - 1].stream.shutdown(socket.SHUT_RDWR)
            until(lambda: server.open() == 0, "it stays open")
        one = ask().connection
        same([ask().connection, ask().connection], [one, one])


@case
def a_connection_that_is_not_kept_takes_no_other_servers_room():
    """What one server has too much is counted neither for it nor for another server."""
    servers = [f"a 127.0.0.1:{SERVER} maxconn 9", f"b 127.0.0.1:{OTHER} maxconn 9"]
    more = " use-server b if { path_beg /b }\n use-server a if { path_beg /hold }\n"
    with Server() as one, Server("b", OTHER), Proxy("--reuse", "--reuse-idle", "1", servers=servers, more=more):
        stack, many = clients(["/hold"] * 4)
        with stack:
            until(lambda: one.paths.count("/hold") == 4, "they never come")
            one.goes.set()
            same({client.answer().status for client in many}, {200})
        until(lambda: one.open() == 1, "more than one is kept")
        first = ask("/b").connection
        same([ask("/b").connection for _ in range(3)], [first] * 3)


@case
def the_last_used_connection_is_used_first():
    """Of two unused connections of a server the one that was used last is used again, and the other one stays."""
    with Server() as server, Proxy("--reuse", servers=[f"a 127.0.0.1:{SERVER} maxconn 9"]):
        stack, (first, second) = clients(["/hold/1", "/hold/2"])
        with stack:
            server.wait_for("/hold/1")
            server.wait_for("/hold/2")
            server.goes.set()
            numbers = {first.answer().connection, second.answer().connection}
            same(len(numbers), 2)
        last = ask().connection
        same([ask().connection for _ in range(4)], [last] * 4)
        same(server.open(), 2)


@case
def an_unused_connection_that_its_server_ends_is_closed():
    """A server that sends no more on an unused connection gets its end at once."""
    with Server() as server, Proxy("--reuse"):
        same(ask().status, 200)
        time.sleep(0.1)
        since = time.monotonic()
        server.connections[0].stream.shutdown(socket.SHUT_WR)
        until(lambda: server.connections[0].end, "it stays open", 10)
        assert time.monotonic() - since < 3.5, "it is closed with its time only"


def hold_beside_an_unused_one(server, number):
    """A request that takes no used connection, while one may be unused: how many connections its server has before long."""
    with Client() as client:
        path = f"/hold/{number}"
        client.ask(path, "POST", "Content-Length: 2\r\n")
        client.send(b"ab")
        server.wait_for(path)
        since = time.monotonic()
        until(lambda: server.open() == 1, "an unused one stays beyond the limit", 10)
        assert time.monotonic() - since < 3.5, "it is closed with its time only"
        server.goes.set()
        same(client.answer().status, 200)
        server.goes.clear()


@case
def an_unused_connection_makes_room_at_the_limit():
    """A server has no more connections than its limit of requests: an unused one, of whichever loop, is closed where another is opened."""
    for loops, rounds in ((1, 1), (8, 6)):
        with Server() as server, Proxy("--reuse", loops=loops):
            for number in range(rounds):
                same(ask().status, 200)
                hold_beside_an_unused_one(server, number)


@case
def one_of_two_unused_connections_makes_room():
    """Where one connection too many is opened, one unused one is closed, whichever loop has it, and not all of them."""
    with Server() as server, Proxy("--reuse", loops=8, servers=[f"a 127.0.0.1:{SERVER} maxconn 2"]):
        for number in range(6):
            paths = [f"/hold/{number}/{one}" for one in range(3)]
            stack, two = clients(paths[:2])
            with stack, Client() as client:
                until(lambda: set(paths[:2]) <= set(server.paths), "they never come")
                server.goes.set()
                same([one.answer().status for one in two], [200, 200])
                server.goes.clear()
                until(lambda: server.open() == 2, "two are never unused", 4)
                client.ask(paths[2], "POST", "Content-Length: 2\r\n")
                client.send(b"ab")
                server.wait_for(paths[2])
                until(lambda: server.open() == 2, "an unused one stays beyond the limit", 4)
                time.sleep(0.1)
                same(server.open(), 2)
                server.goes.set()
                same(client.answer().status, 200)
                server.goes.clear()


@case
def no_connection_is_kept_behind_a_stop():
    """A connection whose exchange ends after a stop is closed at once, though another exchange goes on."""
    servers = [f"a 127.0.0.1:{SERVER} maxconn 9", f"b 127.0.0.1:{OTHER} maxconn 9"]
    more = " use-server b if { path_beg /hold/b }\n use-server a if { path_beg / }\n"
    with Server() as server, Server("b", OTHER) as other, Proxy("--reuse", servers=servers, more=more) as proxy:
        with Client("/hold/a") as first, Client("/hold/b") as second:
            server.wait_for("/hold/a")
            other.wait_for("/hold/b")
            proxy.stop()
            since = time.monotonic()
            server.goes.set()
            same(first.answer().status, 200)
            until(lambda: server.open() == 0, "it stays open", 10)
            assert time.monotonic() - since < 3.5, "it is closed with its time only"
            other.goes.set()
            same(second.answer().status, 200)
        same(proxy.ended(), 0)


@case
def a_connection_within_the_limit_is_not_closed():
    """A request that needs a connection of its own leaves an unused one open where the server's limit has room for both."""
    with Server() as server, Proxy("--reuse", servers=[f"a 127.0.0.1:{SERVER} maxconn 2"]):
        one = ask().connection
        with Client() as client:
            client.ask("/", "POST", "Content-Length: 2\r\n")
            client.send(b"ab")
            same(client.answer().status, 200)
        same((ask().connection, len(server.connections)), (one, 2))


# --- operators -------------------------------------------------------------------------------------------------------------------


@case
def operators_that_left_while_they_waited_leave_room():
    """Operators that leave while they wait for a drain keep no other one out."""
    with Server() as server, Proxy() as proxy, Client("/hold"):
        server.wait_for("/hold")
        for _ in range(40):
            with socket.socket(socket.AF_UNIX) as control:
                control.connect(CONTROL)
                control.sendall(b"drain a --wait\n")
                time.sleep(0.01)
        same(ctl("clients")[0], 0)
        same(proxy.process.poll(), None)


@case
def a_drain_is_answered_once_its_server_is_free():
    """Who waits for a drain is answered only once the server serves nobody."""
    with Server() as server, Proxy(), Client("/hold") as client:
        server.wait_for("/hold")
        drain = subprocess.Popen([PROGRAM, "ctl", CONTROL, "drain", "a", "--wait"], stdout=subprocess.PIPE)
        until(lambda: state()["servers"][0]["limit"] is None, "it is never closed")
        with contextlib.suppress(subprocess.TimeoutExpired):
            drain.wait(0.4)
            raise AssertionError("it is answered though a client is served")
        server.goes.set()
        same(client.answer().status, 200)
        same(drain.wait(LONG), 0)
        assert b"served 0" in drain.stdout.read()
        drain.stdout.close()


@case
def a_drain_that_is_taken_back_is_answered():
    """Who waits for a drain is answered once the server takes requests again, though one is still served."""
    with Server() as server, Proxy(), Client("/hold"):
        server.wait_for("/hold")
        drain = subprocess.Popen([PROGRAM, "ctl", CONTROL, "drain", "a", "--wait"], stdout=subprocess.PIPE)
        until(lambda: state()["servers"][0]["limit"] is None, "it is never closed")
        same(ctl("ready", "a")[0], 0)
        same(drain.wait(LONG), 0)
        assert b"limit 1" in drain.stdout.read()
        drain.stdout.close()


@case
def what_is_set_in_a_pause_holds_behind_it():
    """A limit and a drain that are set in a pause hold once it ends."""
    servers = [f"a 127.0.0.1:{SERVER} maxconn 1", f"b 127.0.0.1:{OTHER} maxconn 1"]
    with Server(), Server("b", OTHER) as other, Proxy(servers=servers):
        def limits():
            return [server["limit"] for server in state()["servers"]]
        same(ctl("pause")[0], 0)
        same(limits(), [None, None])
        with Client("/"):
            time.sleep(0.2)
            same([server["served"] for server in state()["servers"]], [0, 0])
        same((ctl("limit", "a", "7")[0], ctl("drain", "b")[0]), (0, 0))
        same(limits(), [None, None])
        same(other.paths, [])
        same(ctl("resume")[0], 0)
        same(limits(), [7, None])


@case
def what_is_set_in_a_pause_is_answered_as_paused():
    """A limit that is set in a pause is answered as one that doesn't hold yet, and one that is set behind it as it is."""
    with Proxy():
        same(ctl("pause")[0], 0)
        same([ctl(*words) for words in (("limit", "a", "5"), ("ready", "a"))], [(0, "ok server a limit closed served 0 paused\n")] * 2)
        same(ctl("resume")[0], 0)
        same(ctl("limit", "a", "5"), (0, "ok server a limit 5 served 0\n"))
        same(ctl("drain", "a"), (0, "ok server a limit closed served 0\n"))


@case
def the_forms_of_haproxy_are_whole():
    """`show stat` and `show servers state` have a line for each server, in which one without a limit has none."""
    servers = [f"a 127.0.0.1:{SERVER}", f"b 127.0.0.1:{SERVER} maxconn 1", f"c 127.0.0.1:{OTHER} maxconn 4",
               f"d 127.0.0.1:{DEAD} check inter 20ms fall 1"]
    with Server() as server, Proxy(servers=servers, more=" use-server b if { path_beg /hold }\n"), Client("/hold/1"):
        server.wait_for("/hold/1")
        with Client("/hold/2"):
            until(lambda: not state()["servers"][3]["up"], "it is never down")
            same(ctl("drain", "c")[0], 0)
            until(lambda: sum(it["waiting"] for it in state()["servers"]) == 1, "it never waits")
            stat = ctl("show", "stat")[1].rstrip("\n").split("\n")
            states = ctl("show", "servers", "state")[1].rstrip("\n").split("\n")
    columns = stat[0].removeprefix("# ").split(",")
    rows = [dict(zip(columns, row.split(","), strict=True)) for row in stat[1:]]
    told = [tuple(row[column] for column in ("pxname", "svname", "qcur", "scur", "slim", "status")) for row in rows]
    same(told, [("dueproxy", "a", "0", "0", "", "UP"), ("dueproxy", "b", "1", "1", "1", "UP"), ("dueproxy", "c", "0", "0", "", "DRAIN"),
                ("dueproxy", "d", "0", "0", "", "DOWN"), ("dueproxy", "BACKEND", "0", "2", "", "UP")])
    same({value for row in rows for column, value in row.items() if column not in ("pxname", "svname", "qcur", "scur", "slim", "status")}, {""})
    same(states, ["1", "# be_id be_name srv_id srv_name srv_addr srv_op_state srv_admin_state srv_uweight", "1 dueproxy 1 a - 2 0 -",
                  "1 dueproxy 2 b - 2 0 -", "1 dueproxy 3 c - 2 8 -", "1 dueproxy 4 d - 0 0 -"])


@case
def both_logs_are_opened_anew():
    """`ctl reopen` opens the access log and the event log anew."""
    with Server(), Proxy(*LOGS, "--event-log", EVENTS):
        same(ask().status, 200)
        until(lambda: os.path.getsize(LOG) and os.path.getsize(EVENTS), "nothing is written")
        for name in (LOG, EVENTS):
            os.replace(name, name + ".1")
        same(ctl("reopen")[0], 0)
        same(ask().status, 200)
        same(ctl("limit", "a", "3")[0], 0)
        until(lambda: all(os.path.exists(name) and os.path.getsize(name) for name in (LOG, EVENTS)), "one isn't opened anew")


def events():
    with open(EVENTS, encoding="ascii") as file:
        return [line.split(" ", 2)[2].strip() for line in file if line.endswith("\n")]


@case
def each_limit_is_an_event():
    """The event log begins and ends as it says, and has each limit that is set, in its order."""
    servers = [f"a 127.0.0.1:{SERVER} maxconn 1", f"b 127.0.0.1:{OTHER} maxconn 2"]
    with Proxy("--event-log", EVENTS, servers=servers) as proxy:
        for words in ("limit a 3", "drain b", "ready b", "limit a 0", "limit b closed", "pause", "resume", "limit c 1", "limit a x"):
            same(ctl(*words.split(" "))[0], 0 if words not in ("limit c 1", "limit a x") else 1, words)
        proxy.stop()
        same(proxy.ended(), 0)
    same(events(), ["started", f"listening 127.0.0.1:{PROXY}", "limit a 3", "limit b closed", "limit b 2", "limit a 0", "limit b closed",
                    "limit a closed", "limit b closed", "limit a 0", "limit b closed", "stopping", "stopped"])


@case
def the_state_is_whole():
    """The state has a line for each server and one for the proxy, which serves, pauses or stops."""
    servers = [f"a 127.0.0.1:{SERVER} maxconn 1", f"b 127.0.0.1:{OTHER}", f"d 127.0.0.1:{DEAD} maxconn 3 check inter 20ms fall 1"]
    more = " use-server a if { path_beg /hold }\n"
    with Server() as server, Proxy("--places", "2", servers=servers, more=more) as proxy, Client("/hold/1") as first:
        server.wait_for("/hold/1")
        until(lambda: not state()["servers"][2]["up"], "it is never down")
        with Client("/hold/2") as second, Client("/hold/3") as third:
            until(lambda: sum(it["waiting"] for it in (state(), *state()["servers"])) == 2, "two never wait")
            rest = "served 0 waiting 0"
            closed = (f"server a up limit closed served 1 waiting 1\nserver b up limit closed {rest}\nserver d down limit closed {rest}\n"
                      "proxy paused waiting 1 places 2 clients 3\n")
            opened = (f"server a up limit 1 served 1 waiting 1\nserver b up limit 0 {rest}\nserver d down limit 3 {rest}\n"
                      "proxy serving waiting 1 places 2 clients 3\n")
            same(ctl("state")[1], opened)
            same([ctl(*words.split(" "))[1] for words in ("pause", "state", "resume", "clients")], [closed, closed, opened, "clients 3\n"])
            proxy.stop()
            same(ctl("state")[1], opened.replace("serving", "stopping"))
            server.goes.set()
            same({client.answer().status for client in (first, second, third)}, {200})
        same(proxy.ended(), 0)


@case
def a_queue_that_its_clients_left_is_empty():
    """The event log says that a queue is empty once all who waited in it have left."""
    with Server() as server, Proxy("--event-log", EVENTS, more=" option abortonclose\n"), Client("/hold"):
        server.wait_for("/hold")
        stack, _ = clients(["/"] * 3)
        with stack:
            wait_for_waiting(3)
            until(lambda: any(re.search("queue .* fills", line) for line in events()), "it never fills")
        wait_for_waiting(0)
        until(lambda: any(re.search("queue .* empt", line) for line in events()), "it is never empty")


@case
def a_queue_that_requests_are_moved_to_fills():
    """Where a server is closed, the event log says that its own queue is empty and that the backend's fills."""
    servers = [f"a 127.0.0.1:{SERVER} maxconn 1", f"b 127.0.0.1:{OTHER} maxconn 1"]
    more = " option redispatch\n use-server b if { path_beg /hold/b }\n use-server a if { path_beg /hold }\n"
    with Server() as server, Server("b", OTHER) as other, Proxy("--event-log", EVENTS, servers=servers, more=more):
        stack, _ = clients(["/hold/a", "/hold/b"])
        with stack:
            server.wait_for("/hold/a")
            other.wait_for("/hold/b")
            with Client("/hold/1"), Client("/hold/2"):
                until(lambda: "queue a fills" in events(), "its queue never fills")
                same(ctl("drain", "a")[0], 0)
                until(lambda: {"queue a is empty", "queue * fills"} <= set(events()), "they are never moved")


@case
def lines_on_a_queue_are_seldom():
    """A queue that fills and empties again and again has a line a second at most."""
    with Server() as server, Proxy("--event-log", EVENTS, more=" option abortonclose\n"), Client("/hold"):
        server.wait_for("/hold")
        since = time.monotonic()
        for _ in range(8):
            with Client("/"):
                wait_for_waiting(1)
            wait_for_waiting(0)
        time.sleep(0.1)
        most = time.monotonic() - since + 2
        found = [line for line in events() if line.startswith("queue ")]
        assert 0 < len(found) <= most, found


@case
def windows_are_numbered_from_one():
    """The event log counts the windows that ended from 1."""
    with Proxy("--event-log", EVENTS, "--window", "200"):
        found = until(lambda: [line for line in events() if line.startswith("window ")], "no window ends")
    assert found[0].startswith("window 1"), found


@case
def the_end_tells_what_each_server_served():
    """The last lines say how many requests each server was given at once and how many waited; where they can't be printed, the status is 1."""
    with Server() as server, Proxy("--window", "60000") as proxy, Client("/hold") as first:
        server.wait_for("/hold")
        stack, waiting = clients(["/"] * 2)
        with stack:
            wait_for_waiting(2)
            server.goes.set()
            same([client.answer().status for client in (first, *waiting)], [200] * 3)
        first.stream.close()
        proxy.stop()
        same(proxy.ended(), 0)
        told = proxy.process.stdout.read().decode()
        assert "server a up direct 1 granted 2\n" in told, told
    reads, writes = os.pipe()
    os.close(reads)
    with Server(), Proxy(stdout=writes) as proxy:
        os.close(writes)
        same(ask().status, 200)
        proxy.stop()
        same(proxy.ended(), 1)


@case
def the_end_ends_no_window():
    """A window that lasts longer than the proxy isn't told as one that ended."""
    with Server(), Proxy("--event-log", EVENTS, "--window", "60000") as proxy:
        same(ask().status, 200)
        proxy.stop()
        same(proxy.ended(), 0)
    same((events()[-1], [line for line in events() if line.startswith("window ")]), ("stopped", []))


@case
def a_line_says_where_its_request_waited():
    """A request that waited outside has its number in the dispatcher's log, and one that left there ended by its client in the queue."""
    with Server() as server, Proxy(*LOGS, "--places", "1", more=" option abortonclose\n") as proxy, Client("/hold") as first:
        server.wait_for("/hold")
        time.sleep(0.2)
        with Client("/waits") as waits:
            wait_for_waiting(1)
            with Client("/leaves"):
                wait_for_waiting(2)
            wait_for_waiting(1)
            server.goes.set()
            same((first.answer().status, waits.answer().status), (200, 200))
        first.stream.close()
        proxy.stop()
        same(proxy.ended(), 0)
    told = {line["target"]: line for line in lines()}
    same(told["/leaves"]["termination"][:2], "CQ")
    assert isinstance(told["/waits"]["ticket"], int), told["/waits"]
    same(told["/waits"]["termination"], "--")
    assert told["/hold"]["answer_ms"] >= 200, told["/hold"]


@case
def a_line_says_that_the_rest_of_an_answer_was_sent():
    """Where a client takes no more, and its server has given the whole answer, what was under way is the sending of the rest."""
    def attempt():
        with Server(), Proxy(*LOGS, "--keep-alive", "--reuse", servers=[f"a 127.0.0.1:{SERVER}"]) as proxy, Client(receives=4096) as client:
            sender = threading.Thread(target=send_until_refused, args=(client, b"GET /wide HTTP/1.1\r\nHost: h\r\n\r\n" * 4000), daemon=True)
            sender.start()
            until(lambda: stands_still(lambda: len(lines())), "it goes on and on")
            client.reset()
            proxy.stop()
            same(proxy.ended(), 0)
            sender.join(LONG)
        same(lines()[-1]["termination"], "CL")
    tries(3, attempt)


def send_until_refused(client, data):
    with contextlib.suppress(OSError):
        client.send(data)


def stands_still(number):
    """Whether a number that isn't 0 stays the same for a while."""
    before = number()
    time.sleep(0.3)
    return before == number() != 0


@case
def each_request_of_a_connection_has_its_client_and_its_bytes():
    """Each request of a connection has a line with the client's address, its own number of bytes and the number of clients; a client that asks
    for nothing has none, and one that asks badly is ended by the proxy."""
    with Server(), Proxy(*LOGS, "--keep-alive", "--reuse") as proxy:
        with Client() as client:
            for _ in range(3):
                client.ask("/")
                answer = client.answer()
                same(answer.status, 200)
            port = client.stream.getsockname()[1]
        Client().stream.close()
        with Client() as bad:
            bad.send(b"BAD\r\n\r\n")
            same(bad.answer().status, 400)
        proxy.stop()
        same(proxy.ended(), 0)
    *told, last = lines()
    same((last["status"], last["termination"]), (400, "PR"))
    same([line["clients"] for line in told], [1] * 3)
    same([(line["client"], line["target"]) for line in told], [(f"127.0.0.1:{port}", "/")] * 3)
    asked = len(b"GET / HTTP/1.1\r\nHost: h\r\n\r\n")
    same([(line["received"], line["sent"]) for line in told], [(asked, answer.size)] * 3)
    assert all(line["answer_ms"] is not None for line in told), told


# --- what is printed, and logs that fail -----------------------------------------------------------------------------------------


@case
def the_start_says_where_no_request_will_wait():
    """The lines at the start are the address with its numbers, and a second one where no server has a maxconn, and only there."""
    for limits, workers in (((None,), 9), ((0, 0), 9), ((None, 2), 9), ((2, 3), 5), ((4, 7), 9)):
        servers = [f"s{number} 127.0.0.1:{SERVER}" + ("" if limit is None else f" maxconn {limit}") for number, limit in enumerate(limits)]
        with Proxy("--places", "9", servers=servers) as proxy:
            proxy.stop()
            same(proxy.ended(), 0)
            same(proxy.said, f"listening at 127.0.0.1:{PROXY}: servers {len(limits)} workers {workers} places 9\n", limits)
            wanted = "" if any(limits) else "no server has a maxconn: no request will wait, and no order is kept\n"
            same(proxy.process.stderr.read().decode(), wanted, limits)


@case
def a_window_has_its_time():
    """Each printed window has its number, its beginning, which is the end of the one before, and its end, which is later by its length."""
    before = time.time()
    with Proxy("--event-log", EVENTS, "--window", "100") as proxy:
        until(lambda: "window 4 ended" in events(), "the windows never end")
        proxy.stop()
        same(proxy.ended(), 0)
        behind = time.time()
        told = re.findall("window (.*) from (.*) to (.*)\n", proxy.process.stdout.read().decode())
    same([number for number, _, _ in told[:4]], ["1", "2", "3", "4"])
    spans = [[moment_of(began), moment_of(ended)] for _, began, ended in told]
    same([began for began, _ in spans[1:]], [ended for _, ended in spans[:-1]])
    assert all(ended - began > 0.09 for began, ended in spans), spans
    assert before - 1 < spans[0][0] and spans[-1][1] < behind + 1, (before, behind, spans)


def moment_of(date):
    """A moment as logs and windows have it, in seconds."""
    return datetime.datetime.strptime(date, "%Y-%m-%dT%H:%M:%S.%fZ").replace(tzinfo=datetime.timezone.utc).timestamp()


@case
def a_window_that_was_not_printed_is_told_at_the_end():
    """Where a window couldn't be printed, the status is 1, though the last lines could be."""
    reads, writes = os.pipe()
    os.set_blocking(writes, False)
    with contextlib.suppress(BlockingIOError):
        while True:
            os.write(writes, bytes(4096))
    with Proxy("--event-log", EVENTS, "--window", "100", stdout=writes) as proxy:
        until(lambda: "window 3 ended" in events(), "the windows never end")
        os.close(writes)
        os.set_blocking(reads, False)
        with contextlib.suppress(BlockingIOError):
            while os.read(reads, 65536):
                pass
        proxy.stop()
        same(proxy.ended(), 1)
        told = os.read(reads, 65536)
        assert b"server a up direct 0 granted 0\n" in told, told
        os.close(reads)


# A target whose line in the access log is longer than the blocks in which lines are handed over.
LONG_TARGET = "\u00e9" * 7000


@case
def each_log_has_its_own_number_of_lost_lines():
    """How many lines of each log couldn't be written is told at the end, also where several writes fail one right behind the other."""
    events_told = "event log: 5 lines not written\n"
    for access, wanted in ((True, "access log: 24 lines not written\n" + events_told), (False, events_told)):
        words = ("--access-log", "/dev/full" if access else LOG, "--event-log", "/dev/full")
        with Server() as server, Proxy(*words, servers=[f"a 127.0.0.1:{SERVER} maxconn 99"]) as proxy:
            stack, many = clients([f"/hold?{LONG_TARGET}"] * 24)
            with stack:
                until(lambda: len(server.paths) == 24, "they never come")
                server.goes.set()
                same({client.answer().status for client in many}, {200})
            same(ctl("limit", "a", "98")[0], 0)
            proxy.stop()
            same(proxy.ended(), 0)
            told = proxy.process.stderr.read().decode()
        first = "/dev/full: lines can't be written, and are counted\n"
        same((told.replace(first, ""), told.count(first)), (wanted, 1 + access))


@case
def a_full_disk_is_told_once():
    """While no request's line finds room, that is told once, though a shorter line would find room; each line is there or counted."""
    folder = os.path.join(FOLDER, "small")
    name = os.path.join(folder, "requests.log")
    os.makedirs(folder, exist_ok=True)
    if subprocess.run(["mount", "-t", "tmpfs", "-o", "size=16k", "tmpfs", folder], stderr=subprocess.DEVNULL, check=False).returncode:
        return
    try:
        with Server(), Proxy("--access-log", name) as proxy:
            for _ in range(24):
                same(ask("/" + "x" * 1500).status, 200)
                time.sleep(0.02)
            proxy.stop()
            same(proxy.ended(), 0)
            told = proxy.process.stderr.read().decode()
        with open(name, encoding="ascii") as file:
            rows = file.read().split("\n")
        kept = len(rows) - 1
        assert 0 < kept < 24 and rows[-1] == "", rows[-1]
        same(told, f"{name}: lines can't be written, and are counted\naccess log: {24 - kept} lines not written\n")
    finally:
        subprocess.run(["umount", folder], check=True)


@case
def a_torn_line_is_ended_once():
    """A log whose last line lacks its end gets that before the first line, and no empty line ever."""
    names = [os.path.join(FOLDER, f"torn.{kind}") for kind in ("log", "events")]
    for name in names:
        with open(name, "w", encoding="ascii") as file:
            file.write("whole\ntorn")

    def told():
        texts = []
        for name in names:
            with open(name, encoding="ascii") as file:
                texts.append(file.read().split("\n"))
        return texts
    with Server(), Proxy("--access-log", names[0], "--event-log", names[1]):
        for number in range(3):
            same(ask().status, 200)
            same(ctl("limit", "a", str(number + 2))[0], 0)
            until(lambda: [len(rows) for rows in told()] == [4 + number, 6 + number], f"{told()} has no more lines")
        for rows in told():
            same((rows[:2], rows[-1], rows.count("")), (["whole", "torn"], "", 1))


@case
def windows_that_find_no_room_are_counted():
    """Where the reader of standard output hangs, which has the access log too, the number of windows that weren't printed is told."""
    with Server(), Proxy("--access-log", "-", "--window", "100", servers=[f"a 127.0.0.1:{SERVER}"]) as proxy:
        for _ in range(60):
            same(ask(f"/?{LONG_TARGET}").status, 200)
        told = bytearray()

        def is_told():
            for size in (500, 0):
                same(ask(f"/?{LONG_TARGET[:size]}").status, 200)
            while select.select([proxy.process.stderr], [], [], 0)[0]:
                told.extend(os.read(proxy.process.stderr.fileno(), 4096))
            return re.search(rb"windows not printed: [1-9]\d*\n", told)
        until(is_told, "no window is missed")


# --- the admin address -----------------------------------------------------------------------------------------------------------


ADMIN = 18694


def look(path):
    """What the admin address answers."""
    with Client(path, ADMIN) as client:
        return client.answer()


@contextlib.contextmanager
def asked_admin():
    with Proxy("--admin", f"127.0.0.1:{ADMIN}") as proxy, Client(port=ADMIN) as client:
        yield proxy, client


@case
def a_slow_operator_is_answered():
    """An operator whose head comes in pieces is answered where there is room, and one who says nothing, or half a head, is told 408."""
    with asked_admin() as (_, client), Client(port=ADMIN) as silent, Client(port=ADMIN) as half:
        half.send(b"GET /health HTTP/1.1\r\nHost")
        for piece in (b"GET /health", b" HTTP/1.1\r\n", b"Host: h\r\n", b"\r\n"):
            client.send(piece)
            time.sleep(0.15)
        assert client.answer().status in (200, 503)
        same((silent.answer().status, half.answer().status), (408, 408))


@case
def operators_that_say_nothing_make_room():
    """Where as many operators as may be there say nothing, they are told 408 within a second, and the next one is answered."""
    def attempt():
        with Proxy("--admin", f"127.0.0.1:{ADMIN}"), contextlib.ExitStack() as stack:
            since = time.monotonic()
            silent = [stack.enter_context(Client(port=ADMIN)) for _ in range(16)]
            same(look("/health").status, 200)
            same({client.answer().status for client in silent}, {408})
            passed = time.monotonic() - since
            assert passed < 1.6, passed
    tries(3, attempt)


@case
def one_server_is_enough_for_health():
    """`/health` says ok where one of two servers is up and takes requests, and that there is no server where none does."""
    servers = [f"a 127.0.0.1:{SERVER}", f"d 127.0.0.1:{DEAD} check inter 20ms fall 1"]
    with Server(), Proxy("--admin", f"127.0.0.1:{ADMIN}", servers=servers):
        def health():
            answer = look("/health")
            return answer.status, answer.body
        until(lambda: not json.loads(look("/state.json").body)["servers"][1]["up"], "it is never down")
        same(health(), (200, b"ok\n"))
        same(ctl("drain", "a")[0], 0)
        until(lambda: health() == (503, b"no server\n"), "it says ok on and on")
        same(ctl("ready", "a")[0], 0)
        until(lambda: health() == (200, b"ok\n"), "it says no server on and on")


def numbers(name):
    """The samples of a metric: the value of each set of labels."""
    told = re.findall(r"\n" + name + r"(?:\{(.*)\})? (\S+)", look("/metrics").body.decode())
    return {labels.replace('"', ""): int(value) for labels, value in told}


@case
def failed_connections_are_counted():
    """The numbers have each connection that failed, and the failures after which a request kept its slot."""
    servers = [f"d 127.0.0.1:{DEAD} maxconn 1", f"a 127.0.0.1:{SERVER} maxconn 1"]
    more = " retries 2\n use-server d if { path_beg /dead }\n use-server a unless { path_beg /dead }\n"
    with Server(), Proxy(*LOGS, "--admin", f"127.0.0.1:{ADMIN}", servers=servers, more=more, connect="100ms"):
        same([ask(path).status for path in ("/dead", "/", "/")], [503, 200, 200])
        until(lambda: sum(numbers("dueproxy_requests_total").values()) == 3, "they are never counted")
        same(numbers("dueproxy_requests_total"), {"server=d,status=503": 1, "server=a,status=200": 2})
        same(numbers("dueproxy_connection_failures_total"), {"server=d": 3, "server=a": 0})
        same(numbers("dueproxy_retries_total"), {"server=d": 2, "server=a": 0})
        same(refusals(), {"retries": 1})
        until(lambda: len(lines()) == 3, "they have no lines")
        told = [(line["retries"], line["redispatched"], line["left"]) for line in lines()]
        same(told, [(2, False, "retries"), (0, False, None), (0, False, None)])


@case
def the_numbers_have_the_log_and_the_stop():
    """The numbers have the places, the entries and the windows of the dispatcher's log, and whether the proxy stops."""
    with Server() as server, Proxy("--places", "9", "--admin", f"127.0.0.1:{ADMIN}") as proxy:
        same(ask().status, 200)
        # The request comes, has its slot at once, is over, returns its slot, and ends.
        until(lambda: numbers("dueproxy_log_entries") == {"": 5}, "its entries are never counted")
        names = ("places", "places_in_use", "log_entries", "log_entries_most", "windows_total", "stopping", "outside_waiting")
        same([numbers(f"dueproxy_{name}") for name in names], [{"": value} for value in (9, 0, 5, 262144, 0, 0, 0)])
        page = json.loads(look("/state.json").body)
        names = ("places", "live", "entries", "most_entries", "windows", "phase", "outside")
        same([page[name] for name in names], [9, 0, 5, 262144, 0, "serving", 0])
        with Client("/hold") as client:
            server.wait_for("/hold")
            proxy.stop()
            until(lambda: numbers("dueproxy_stopping") == {"": 1}, "it never stops")
            until(lambda: json.loads(look("/state.json").body)["phase"] == "stopping", "it never stops")
            server.goes.set()
            same(client.answer().status, 200)
        same(proxy.ended(), 0)
    with Proxy("--window", "100", "--event-log", EVENTS, "--admin", f"127.0.0.1:{ADMIN}"):
        until(lambda: numbers("dueproxy_windows_total")[""] >= 2, "no window ends")
        counted = numbers("dueproxy_windows_total")[""]
        until(lambda: f"window {counted} ended" in events(), "they have no lines")
        until(lambda: json.loads(look("/state.json").body)["windows"] >= counted, "they are never told")


@case
def lines_that_were_lost_are_counted():
    """The numbers have the lines of each log that couldn't be written, each its own."""
    def lost():
        told = re.findall(r'\ndueproxy_left_out_total\{what="(\w+)"\} (\d+)', look("/metrics").body.decode())
        return {what: int(count) for what, count in told}
    with Server(), Proxy("--access-log", "/dev/full", "--event-log", "/dev/full", "--admin", f"127.0.0.1:{ADMIN}"):
        assert {what for what, count in lost().items() if count} <= {"event_lines"}, lost()
        same([ask().status for _ in range(12)], [200] * 12)
        until(lambda: lost()["access_lines"] == 12, "they aren't counted")
        limits = []

        def are_counted():
            limits.append(ctl("limit", "a", "3"))
            return lost()["event_lines"] >= 3
        until(are_counted, "events aren't counted")
        told = lost()
        # Beside the limits there are `started` and `listening`.
        assert told.pop("event_lines") <= 2 + len(limits), "more than there were"
        same(told, {"access_lines": 12, "requests": 0, "entries": 0, "gaps": 0})


def refusals():
    """The causes of refusals that are counted, with their numbers."""
    told = re.findall(r'\ndueproxy_refusals_total\{cause="(\w+)"\} (\d+)', look("/metrics").body.decode())
    same(sorted(cause for cause, _ in told), ["aborted", "nohead", "noserver", "retries", "timeout", "unplaced"])
    return {cause: int(count) for cause, count in told if count != "0"}


@case
def each_refusal_has_one_cause():
    """Who sends no head that is taken counts as that alone, and so does who finds no place in time."""
    with Server() as server, Proxy("--places", "1", "--admin", f"127.0.0.1:{ADMIN}", queue="300ms"):
        for count in (1, 2):
            with Client() as client:
                client.send(b"BAD\r\n\r\n")
                same(client.answer().status, 400)
            until(lambda: sum(refusals().values()) >= count, "it is never counted")
            same(refusals(), {"nohead": count})
        with Client("/hold"):
            server.wait_for("/hold")
            same(ask().status, 503)
            until(lambda: sum(refusals().values()) == 3, "it is never counted")
            same(refusals(), {"nohead": 2, "unplaced": 1})


@case
def an_operator_that_sends_a_body_gets_its_answer():
    """What an operator sends behind its head doesn't cut its answer off."""
    with asked_admin() as (_, client):
        client.ask("/metrics", more="Content-Length: 300000\r\n")
        for _ in range(30):
            client.send(bytes(10_000))
            time.sleep(0.002)
        answer = client.answer()
        assert answer.status == 200 and answer.body.endswith(b"\n"), answer.body[-80:]
        same(client.end(), "end")


def main():
    failed = count = 0
    for function in CASES:
        name = function.__name__.replace("_", " ")
        if not re.search(os.environ.get("ONLY", ""), name):
            continue
        count += 1
        since = time.monotonic()
        try:
            function()
            print(f"ok      {name} ({time.monotonic() - since:.1f} s)", flush=True)
        except Exception as error:
            failed += 1
            print(f"FAILED  {name}: {type(error).__name__} {str(error)[:300]}", flush=True)
    print(f"{count} cases, {failed} failures")
    sys.exit(1 if failed else 0)


main()
