#!/usr/bin/env python3
"""cases.py PROGRAM FOLDER [haproxy]: what a proxy does between hostile clients and servers.

Each case starts PROGRAM before small servers of this script, and is tried on real sockets. With a
third word PROGRAM is HAProxy's. Where both are meant to differ, a case says so with `either`. The
variable ONLY is a pattern: of all cases those are tried whose names have it."""
import asyncio
import contextlib
import fcntl
import hashlib
import os
import re
import resource
import select
import signal
import socket
import struct
import subprocess
import sys
import threading
import time

PROGRAM, FOLDER = sys.argv[1:3]
os.makedirs(FOLDER, exist_ok=True)
HAPROXY = len(sys.argv) > 3
PROXY, SERVER, OTHER, NOBODY = 18280, 18281, 18282, 18283
SECONDS = 20
MIB = 1 << 20
GET = b"GET / HTTP/1.1\r\nHost: h\r\n\r\n"
ANSWER = b"HTTP/1.1 200 OK\r\nContent-Length: 2\r\n\r\nok"
CHUNKED = b"HTTP/1.1 200 OK\r\nTransfer-Encoding: chunked\r\n\r\n"
CASES = []


class Seen(Exception):
    """What was seen in place of what should be."""


def expect(good, *told):
    if not good:
        raise Seen(" ".join(it if isinstance(it, str) else short(it) for it in told))


def short(it):
    text = repr(it)
    return text if len(text) < 160 else f"{text[:110]}..{text[-40:]}"


def either(dueproxy, haproxy):
    """What is expected here, where both are meant to differ."""
    return haproxy if HAPROXY else dueproxy


# It looks at a client's reset while it waits for others only with this option.
NOTICES = either("", " option abortonclose\n")


def case(function):
    CASES.append(function)
    return function


def alike(*variants):
    """The same case for several words; the case's docstring has a place for them."""
    def add(function):
        for variant in variants:
            def one(variant=variant):
                return function(*variant)
            one.__doc__ = function.__doc__.format(*map(word, variant))
            CASES.append(one)
        return function
    return add


def word(it):
    return it.decode("latin-1") if isinstance(it, bytes) else it


# The proxy.


def configured(settings, servers, files):
    front = ""
    if HAPROXY:
        front = f"global\n maxconn {min(6000, files // 2 - 40)}\ndefaults\n mode http\n"
        front += " option httpclose\n option http-no-delay\n"
    lines = "".join(f" server {it}\n" for it in servers)
    name = f"{FOLDER}/cases.cfg"
    with open(name, "w", encoding="ascii") as file:
        file.write(f"{front}listen cases\n bind 127.0.0.1:{PROXY}\n{settings}{lines}")
    return name


@contextlib.contextmanager
def files_at_most(count):
    """Who is started meanwhile has so many descriptors."""
    before = resource.getrlimit(resource.RLIMIT_NOFILE)
    resource.setrlimit(resource.RLIMIT_NOFILE, (min(count, before[0]), before[1]))
    yield
    resource.setrlimit(resource.RLIMIT_NOFILE, before)


class Proxy:
    """A proxy before the server at SERVER, and others where their lines are given. `words` are
    Dueproxy's alone."""

    def __init__(self, settings="", maxconn=4, words="", others=(), output=subprocess.DEVNULL,
                 files=20_000):
        server = f"it 127.0.0.1:{SERVER} maxconn {maxconn}"
        name = configured(settings, [server, *others], files)
        command = [PROGRAM, "run", name, *words.split()]
        if HAPROXY:
            command = [PROGRAM, "-db", "-q", "-f", name]
        pipe = subprocess.DEVNULL if HAPROXY else subprocess.PIPE
        with files_at_most(files):
            self.process = subprocess.Popen(command, stdout=output, stderr=pipe)
        self.pid = self.process.pid
        self.status = None
        if HAPROXY:
            self.wait_for_haproxy()
        else:
            self.first = self.process.stderr.readline()
        # HAProxy opens one or two more for itself.
        self.at_first = self.settled_files() + either(0, 2)

    @staticmethod
    def wait_for_haproxy():
        for _ in range(200):
            try:
                socket.create_connection(("127.0.0.1", PROXY)).close()
                return time.sleep(0.1)
            except OSError:
                time.sleep(0.02)
        raise Seen("it doesn't listen")

    def __enter__(self):
        return self

    def __exit__(self, kind, *_):
        status = self.process.poll()
        self.process.kill()
        self.process.wait()
        if not HAPROXY:
            self.process.stderr.close()
        if kind is None and self.status is None:
            expect(status is None, f"the proxy ended with status {status}")

    def settled_files(self):
        """Its descriptors once their number has been the same for a while: then it has begun."""
        counts = [self.files()]
        while len(counts) < 6 or len(set(counts[-6:])) > 1:
            time.sleep(0.025)
            counts.append(self.files())
        return counts[-1]

    def files(self):
        return len(os.listdir(f"/proc/{self.pid}/fd"))

    def files_become(self, count, seconds=3.5):
        """Whether so many descriptors, or fewer, are open within that time."""
        until = time.time() + seconds
        while self.files() > count and time.time() < until:
            time.sleep(0.05)
        return self.files() <= count

    def told(self):
        """What is open, in words."""
        kinds = {}
        for name in os.listdir(f"/proc/{self.pid}/fd"):
            with contextlib.suppress(OSError):
                kind = os.readlink(f"/proc/{self.pid}/fd/{name}").split("[")[0]
                kinds[kind] = kinds.get(kind, 0) + 1
        return f"{sum(kinds.values())} files, {self.at_first} at first: {kinds}"

    def took(self):
        """Its processor time in seconds."""
        with open(f"/proc/{self.pid}/stat", encoding="ascii") as file:
            words = file.read().rsplit(")", 1)[1].split()
        return (int(words[11]) + int(words[12])) / os.sysconf("SC_CLK_TCK")

    def memory(self):
        """Its resident KiB."""
        with open(f"/proc/{self.pid}/statm", encoding="ascii") as file:
            return int(file.read().split()[1]) * os.sysconf("SC_PAGE_SIZE") // 1024

    def end(self):
        """Its status, where it ends by itself soon."""
        try:
            self.status = self.process.wait(timeout=3)
        except subprocess.TimeoutExpired:
            self.status = "none: it goes on"
        return self.status


# Servers.


class Conn:
    """A connection at a server. What is read and not used is kept."""

    def __init__(self, sock):
        self.sock, self.rest, self.path = sock, b"", ""
        sock.settimeout(20)
        sock.setsockopt(socket.IPPROTO_TCP, socket.TCP_NODELAY, 1)

    def more(self):
        piece = self.sock.recv(65536)
        self.rest += piece
        return piece

    def head(self):
        """A request's head; nothing where the connection ends before one."""
        while b"\r\n\r\n" not in self.rest:
            if not self.more():
                return b""
        head, self.rest = self.rest.split(b"\r\n\r\n", 1)
        return head

    def line(self):
        while b"\r\n" not in self.rest:
            if not self.more():
                raise ConnectionError
        line, self.rest = self.rest.split(b"\r\n", 1)
        return line

    def pieces(self, count):
        """So many bytes as they come."""
        while count:
            if not self.rest and not self.more():
                raise ConnectionError
            piece, self.rest = self.rest[:count], self.rest[count:]
            count -= len(piece)
            yield piece

    def body(self, head):
        """A request's body, in pieces as they come."""
        length = re.search(rb"(?i)\r\ncontent-length: *(\d+)", head)
        if length:
            yield from self.pieces(int(length.group(1)))
        elif re.search(rb"(?i)\r\ntransfer-encoding: *chunked", head):
            while size := int(self.line().split(b";")[0], 16):
                yield from self.pieces(size)
                self.line()
            while self.line():
                pass

    def send(self, data):
        self.sock.sendall(data)

    def wait(self, seconds):
        """So long, or until the other end closes or sends."""
        poll = select.poll()
        poll.register(self.sock, select.POLLIN)
        return bool(poll.poll(seconds * 1000))

    def reset(self):
        self.sock.setsockopt(socket.SOL_SOCKET, socket.SO_LINGER, struct.pack("ii", 1, 0))
        self.sock.close()

    def polite(self):
        """Sends no more, and reads on to the end."""
        self.sock.shutdown(socket.SHUT_WR)
        while self.sock.recv(1 << 20):
            pass


def has_ended(sock):
    """Whether the other end closed, be there bytes unread or not."""
    if sock.fileno() < 0:
        return True
    poll = select.poll()
    poll.register(sock, select.POLLRDHUP)
    return bool(poll.poll(0))


class Server:
    """Does with each request what it is told to. It knows the paths that came, and, where it
    counts, how many connections it had at most that the other end hadn't closed."""

    def __init__(self, does, port=SERVER, head=True, counts=False):
        self.does, self.reads_head, self.counts = does, head, counts
        self.paths, self.open, self.most = [], set(), 0
        self.guard = threading.Lock()
        self.listener = socket.create_server(("127.0.0.1", port), backlog=4096)
        threading.Thread(target=self.accept, daemon=True).start()

    def accept(self):
        while True:
            try:
                sock, _ = self.listener.accept()
            except OSError:
                return
            threading.Thread(target=self.serve, args=[sock], daemon=True).start()

    def serve(self, sock):
        conn = Conn(sock)
        with self.guard:
            self.open.add(sock)
            if self.counts:
                self.most = max(self.most, sum(not has_ended(it) for it in self.open))
        try:
            head = conn.head() if self.reads_head else b"GET / HTTP/1.1"
            if head:
                conn.path = head.split(b" ")[1].decode("latin-1")
                with self.guard:
                    self.paths.append(conn.path)
                self.does(conn, head)
        except (OSError, ValueError):
            pass
        finally:
            with self.guard:
                self.open.discard(sock)
            sock.close()

    def __enter__(self):
        return self

    def __exit__(self, *_):
        with contextlib.suppress(OSError):
            self.listener.shutdown(socket.SHUT_RDWR)
        self.listener.close()
        for sock in list(self.open):
            with contextlib.suppress(OSError):
                sock.shutdown(socket.SHUT_RDWR)


class Full:
    """A listener whose backlog is full: a connect to it hangs."""

    def __init__(self, port=SERVER):
        self.listener = socket.create_server(("127.0.0.1", port), backlog=0)
        self.clients = []
        for _ in range(4):
            client = socket.socket()
            client.setblocking(False)
            client.connect_ex(("127.0.0.1", port))
            self.clients.append(client)
        time.sleep(0.05)

    def __enter__(self):
        return self

    def __exit__(self, *_):
        for it in [self.listener, *self.clients]:
            it.close()


def quick(conn, head):
    """Reads the request whole, and answers."""
    for _ in conn.body(head):
        pass
    conn.send(ANSWER)


def slow(seconds, answer=ANSWER):
    def does(conn, head):
        for _ in conn.body(head):
            pass
        if not conn.wait(seconds):
            conn.send(answer)
    return does


def slow_if_asked(seconds):
    """Slow for a path that begins with /slow."""
    def does(conn, head):
        (slow(seconds) if conn.path.startswith("/slow") else quick)(conn, head)
    return does


def digest(conn, head):
    """Answers with the digest of what came."""
    found = hashlib.sha256()
    for piece in conn.body(head):
        found.update(piece)
    conn.send(with_length(found.hexdigest().encode()))


def says(text):
    """Reads the request, and says this."""
    def does(conn, head):
        for _ in conn.body(head):
            pass
        conn.send(text)
    return does


def with_length(body, status=b"200 OK"):
    return b"HTTP/1.1 %s\r\nContent-Length: %d\r\n\r\n%s" % (status, len(body), body)


def by_bytes(sock, data, pause=0.0):
    for at in range(len(data)):
        sock.sendall(data[at:at + 1])
        if pause:
            time.sleep(pause)


def in_chunks(body, size, extension=b""):
    text = b""
    for at in range(0, len(body), size):
        piece = body[at:at + size]
        text += b"%X%s\r\n%s\r\n" % (len(piece), extension, piece)
    return text


def stream(conn, piece, pause, seconds=60.0):
    """A chunked answer of this piece again and again."""
    conn.send(CHUNKED)
    until = time.time() + seconds
    while time.time() < until:
        data = piece() if callable(piece) else piece
        conn.send(b"%x\r\n%s\r\n" % (len(data), data))
        if conn.wait(pause):
            return
    conn.send(b"0\r\n\r\n")


# Clients.


def request(path="/", method="GET", fields=b"", body=b""):
    return b"%s %s HTTP/1.1\r\nHost: h\r\n%s\r\n%s" % (method.encode(), path.encode(), fields, body)


def post(body, path="/"):
    return request(path, "POST", b"Content-Length: %d\r\n" % len(body), body)


def connect(sends=b"", receive=None, seconds=SECONDS):
    client = socket.socket()
    if receive:
        client.setsockopt(socket.SOL_SOCKET, socket.SO_RCVBUF, receive)
    client.settimeout(seconds)
    client.connect(("127.0.0.1", PROXY))
    client.setsockopt(socket.IPPROTO_TCP, socket.TCP_NODELAY, 1)
    if sends:
        client.sendall(sends)
    return client


def leave(client, resets):
    if resets:
        client.setsockopt(socket.SOL_SOCKET, socket.SO_LINGER, struct.pack("ii", 1, 0))
    client.close()


def read_all(client):
    """What comes, and how it ended: `end`, `reset`, or `open` where it didn't in time."""
    got = bytearray()
    while True:
        try:
            piece = client.recv(1 << 18)
        except socket.timeout:
            return bytes(got), "open"
        except OSError:
            return bytes(got), "reset"
        if not piece:
            return bytes(got), "end"
        got += piece


def ask(sends=GET, seconds=SECONDS):
    """What a client gets, how it ended, and after how many seconds."""
    start = time.time()
    with connect(seconds=seconds) as client:
        with contextlib.suppress(ConnectionError):
            client.sendall(sends)
        got, ended = read_all(client)
    return got, ended, time.time() - start


def send_beside(client, pieces):
    """Sends from a thread of its own. Once joined, its `sent` says how much went out."""
    def send():
        try:
            for piece in pieces:
                client.sendall(piece)
                thread.sent += len(piece)
        except OSError:
            pass
    thread = threading.Thread(target=send, daemon=True)
    thread.sent = 0
    thread.start()
    return thread


def together(count, does):
    """What so many threads gave that did this at once."""
    given = [None] * count

    def do(number):
        try:
            given[number] = does(number)
        except OSError as error:
            given[number] = error

    threads = [threading.Thread(target=do, args=[it]) for it in range(count)]
    for thread in threads:
        thread.start()
    for thread in threads:
        thread.join()
    return given


def status(got):
    return int(got[9:12]) if re.match(rb"HTTP/1\.[01] \d\d\d", got) else None


class Taken:
    """An answer taken apart: its interim statuses, its status, its fields and its body, and
    whether that is as long as the fields say."""

    def __init__(self, got, to_head=False):
        self.interim, self.status, self.fields, self.body, self.whole = [], None, {}, b"", False
        while b"\r\n\r\n" in got:
            head, got = got.split(b"\r\n\r\n", 1)
            if not 99 < (status(head) or 0) < 200:
                return self.take(head, got, to_head)
            self.interim.append(status(head))

    def take(self, head, body, to_head):
        self.status = status(head)
        for line in head.split(b"\r\n")[1:]:
            name, value = line.split(b":", 1)
            self.fields[name.decode().lower()] = value.strip().decode("latin-1")
        self.body = body
        if to_head or self.status in (204, 304):
            self.whole = body == b""
        elif self.fields.get("transfer-encoding", "").lower() == "chunked":
            self.take_chunks(body)
        elif "content-length" in self.fields:
            self.whole = len(body) == int(self.fields["content-length"])
        else:
            self.whole = True

    def take_chunks(self, text):
        data, at = [], 0
        while (end := text.find(b"\r\n", at)) >= 0:
            size = int(text[at:end].split(b";")[0], 16)
            at = end + 2
            if size == 0:
                self.whole = text.find(b"\r\n", at) >= 0 and text.endswith(b"\r\n")
                break
            data.append(text[at:at + size])
            at += size
            if text[at:at + 2] != b"\r\n":
                break
            at += 2
        self.body = b"".join(data)


def expect_ok(got, ended="end", body=b"ok"):
    taken = Taken(got)
    expect(taken.status == 200 and taken.whole and taken.body == body, got, ended)
    expect(ended == "end", "it was", ended)


def expect_next(within, sends=GET):
    """The next client is served within so many seconds."""
    got, ended, took = ask(sends)
    expect(status(got) == 200 and took < within, f"the next client after {took:.2f} s:", got, ended)


async def ask_beside(sends, answers):
    try:
        reader, writer = await asyncio.open_connection("127.0.0.1", PROXY)
        writer.write(sends)
        got = await reader.read()
        writer.close()
        key = status(got)
    except OSError as error:
        key = type(error).__name__
    answers[key] = answers.get(key, 0) + 1


def ask_at_once(count, seconds, sends=GET):
    """How many of so many clients at once got which status."""
    answers = {}

    async def all_of_them():
        tasks = [asyncio.create_task(ask_beside(sends, answers)) for _ in range(count)]
        _, left = await asyncio.wait(tasks, timeout=seconds)
        for it in left:
            it.cancel()
        if left:
            answers["none"] = len(left)

    asyncio.run(all_of_them())
    return answers


def rate(count, seconds):
    """How many answers a second so many clients get that ask again and again, so long at least, and until each had one."""
    answers = {}
    start = time.time()

    def is_over():
        passed = time.time() - start
        return seconds <= passed and count <= sum(answers.values()) or 60 < passed

    async def again():
        while not is_over():
            await ask_beside(GET, answers)

    async def all_of_them():
        tasks = [asyncio.create_task(again()) for _ in range(count)]
        while not is_over():
            await asyncio.sleep(0.05)
        found = answers.get(200, 0) / (time.time() - start)
        _, left = await asyncio.wait(tasks, timeout=20)
        for it in left:
            it.cancel()
        return found

    found = asyncio.run(all_of_them())
    expect(set(answers) <= {200}, "answers", answers)
    return found


# 1. Few places.


@case
def two_clients_at_one_place():
    """1 two clients at once at one place, without `timeout client`"""
    with Server(slow(0.3)), Proxy(words="--places 1"):
        for got, ended, took in together(2, lambda _: ask()):
            expect_ok(got, ended)
            expect(took < 1.2, f"after {took:.2f} s")


@alike(("as many as there are", "", 1200), ("16", "--places 16", 1200), ("1", "--places 1", 300))
def many_clients(_, words, count):
    """1 {2} clients at once, places: {0}"""
    with Server(slow(0.001)), Proxy(words=words):
        answers = ask_at_once(count, 60)
    expect(answers == {200: count}, "answers", answers)


# 2. and 9. Early answers.


def early(line, polite, body=b"early"):
    def does(conn, _):
        conn.send(with_length(body, line))
        if polite:
            conn.polite()
    return does


@alike((b"413 Payload Too Large", "closes"), (b"413 Payload Too Large", "reads on"),
       (b"200 OK", "closes"), (b"200 OK", "reads on"))
def early_answer(line, then):
    """2 an early {} of a server that {}, and 8 MiB sent beside"""
    with Server(early(line, then == "reads on")), Proxy(maxconn=1):
        with connect(request("/", "POST", b"Content-Length: %d\r\n" % (8 * MIB))) as client:
            thread = send_beside(client, [bytes(MIB)] * 8)
            got, ended = read_all(client)
        thread.join()
        taken = Taken(got)
        right = (taken.status, taken.body) == (int(line[:3]), b"early") and ended != "open"
        # HAProxy may tell nothing of a server that closes with bytes unread.
        right = right or HAPROXY and then == "closes" and got == b""
        expect(right, got, ended, f"{thread.sent} sent")
        got, ended, took = ask()
        expect(status(got) and took < 1, f"the next client after {took:.2f} s:", got, ended)


@alike((5,), (60_000,), (1_000_000,))
def early_answer_unread(size):
    """2 an early 200 with {} bytes, and a client that sends all of 8 MiB before it reads"""
    with Server(early(b"200 OK", True, b"x" * size)), Proxy(maxconn=1):
        with connect(request("/", "POST", b"Content-Length: %d\r\n" % (8 * MIB))) as client:
            with contextlib.suppress(OSError):
                for _ in range(128):
                    client.sendall(bytes(65536))
            got, ended = read_all(client)
    taken = Taken(got)
    expect(taken.whole and taken.body == b"x" * size and ended != "open",
           f"{len(taken.body)} bytes", got, ended)


@case
def early_answer_read_beside():
    """2 an early 200 with 1 MB of a server that reads on, and a client that sends beside"""
    with Server(early(b"200 OK", True, b"x" * MIB)), Proxy():
        for _ in range(12):
            with connect(request("/", "POST", b"Content-Length: %d\r\n" % (8 * MIB))) as client:
                thread = send_beside(client, [bytes(65536)] * 128)
                got, ended = read_all(client)
            thread.join()
            taken = Taken(got)
            expect(taken.whole, f"{len(taken.body)} of {MIB} bytes", ended)


@alike((b"413 Payload Too Large",), (b"200 OK",))
def early_answer_slow_body(line):
    """2 an early {}, and a body that is sent slowly"""
    with Server(early(line, False)), Proxy(maxconn=1):
        with connect(request("/", "POST", b"Content-Length: 1000000\r\n")) as client:
            thread = send_beside(client, slowly(b"x" * 1000, 300, 0.005))
            start = time.time()
            got, ended = read_all(client)
            took = time.time() - start
            taken = Taken(got)
            right = (taken.status, taken.body) == (int(line[:3]), b"early") and ended != "open"
            expect(right and took < 1, f"after {took:.2f} s", got, ended)
            got, ended, took = ask()
            expect(status(got) and took < 1, f"the next client after {took:.2f} s:", got, ended)
        thread.join()


def slowly(piece, count, pause):
    for _ in range(count):
        yield piece
        time.sleep(pause)


@case
def early_answer_before_the_request():
    """2 a server that answers before it reads, and closes"""
    def does(conn, _):
        conn.send(ANSWER)
    with Server(does, head=False), Proxy(maxconn=1):
        for _ in range(20):
            got, ended, took = ask()
            expect_ok(got, ended)
            expect(took < 1, f"after {took:.2f} s")


# 3. Nobody is at the server's address.


@alike(("is reset", True, ""), ("ends", False, " option abortonclose\n"),
       ("is reset, with abortonclose", True, " option abortonclose\n"))
def given_up(_, resets, settings):
    """3 no server, retries, and a client that {}: its request is given up"""
    settings += NOTICES + " retries 3\n timeout connect 5s\n"
    with Proxy(settings, 1, "--places 1") as proxy:
        client = connect(request("/first"))
        time.sleep(0.3)
        leave(client, resets)
        time.sleep(0.1)
        with Server(quick) as server:
            expect_next(0.5, request("/second"))
            time.sleep(1.2)
            expect(server.paths == ["/second"], "the server got", server.paths)
        expect(proxy.files_become(proxy.at_first), proxy.told())


@case
def given_up_not():
    """3 no server, retries, and a client that ends without abortonclose: it is tried again"""
    with Proxy(" retries 3\n timeout connect 5s\n", 1):
        client = connect(request("/first"))
        time.sleep(0.2)
        client.shutdown(socket.SHUT_WR)
        with Server(quick) as server:
            got, ended = read_all(client)
            expect_ok(got, ended)
            expect(server.paths == ["/first"], server.paths)
        client.close()


@case
def queue_behind_retries():
    """3 no server, retries, `timeout queue 500ms`: who waits behind is told 503 in time"""
    with Proxy(" retries 3\n timeout connect 5s\n timeout queue 500ms\n", 1):
        first = connect(request("/first"))
        time.sleep(0.1)
        got, ended, took = ask(request("/second"))
        expect(status(got) == 503 and 0.45 < took < 1, f"after {took:.2f} s", got, ended)
        got, ended = read_all(first)
        expect(status(got) == 503, "the first one:", got, ended)
        first.close()


@case
def put_back():
    """3 `option redispatch`, `timeout queue 500ms`: a request that was put back is a 503 in time"""
    settings = " option redispatch\n retries 1\n timeout connect 5s\n timeout queue 500ms\n"
    settings += " use-server dead if { path_beg /dead }\n"
    with Server(slow(3)):
        with Proxy(settings, 1, others=[f"dead 127.0.0.1:{NOBODY} maxconn 1 weight 0"]):
            holds = connect(GET)
            time.sleep(0.1)
            got, ended, took = ask(request("/dead"))
            # HAProxy may pause first.
            right = status(got) == 503 and 0.45 < took < either(1, 3)
            expect(right, f"after {took:.2f} s", got, ended)
            holds.close()


@case
def put_back_and_served():
    """3 `option redispatch`: a request that was put back is served as soon as there is a slot"""
    settings = " option redispatch\n retries 1\n timeout connect 5s\n timeout queue 3s\n"
    settings += " use-server dead if { path_beg /dead }\n"
    with Server(slow_if_asked(0.6)):
        with Proxy(settings, 1, others=[f"dead 127.0.0.1:{NOBODY} maxconn 1 weight 0"]):
            holds = connect(request("/slow"))
            time.sleep(0.1)
            got, ended, took = ask(request("/dead"))
            expect_ok(got, ended)
            expect(took < either(0.8, 2), f"after {took:.2f} s")
            holds.close()


# 4. A silent server.


def stream_or_silence(conn, head):
    if conn.path == "/stream":
        stream(conn, b"0123456789", 0.05, 2.5)
    elif conn.path == "/silent":
        conn.wait(20)
    else:
        quick(conn, head)


@case
def silent_server():
    """4 `timeout server 1s`: a silent server is a 502, while another answer streams"""
    with Server(stream_or_silence), Proxy(" timeout server 1s\n"):
        with connect(request("/stream")) as streams:
            got, ended, took = ask(request("/silent"))
            right = status(got) == either(502, 504) and 0.9 < took < 1.6
            expect(right, f"after {took:.2f} s", got, ended)
            got, ended = read_all(streams)
            taken = Taken(got)
            expect(taken.whole and ended == "end" and len(taken.body) > 300, got, ended)


# 5. Beyond the places.


@alike((8,), (0,))
def rate_beyond_places(millis):
    """5 400 clients at limit 4, a server of {} ms: at 16 places not under half as at 1,024"""
    with Server(slow(millis / 1000) if millis else quick):
        with Proxy():
            within = rate(400, 1)
        with Proxy(words="--places 16"):
            beyond = rate(400, 1)
    expect(beyond > within / 2, f"{beyond:.0f} a second, within the places {within:.0f}")


def expect_calm(proxy, most=0.05):
    before = proxy.took()
    time.sleep(1)
    took = proxy.took() - before
    expect(took <= most, f"{took:.2f} s of processor time in a second")


@case
def idle_clients():
    """5 300 silent clients at 16 places cost no processor time"""
    with Server(quick), Proxy(words="--places 16") as proxy:
        clients = [connect() for _ in range(300)]
        time.sleep(0.2)
        expect_calm(proxy)
        expect_next(0.5)
        for client in clients:
            client.close()


@case
def waiting_clients():
    """5 300 clients that wait, most beyond 16 places, cost no processor time"""
    with Server(slow(4)), Proxy(words="--places 16") as proxy:
        clients = [connect(GET) for _ in range(300)]
        time.sleep(0.3)
        expect_calm(proxy)
        for client in clients:
            client.close()


@case
def calm_in_all_stages():
    """5 clients and servers that stand still in all stages cost no processor time"""
    def does(conn, head):
        if conn.path == "/large":
            conn.send(with_length(bytes(8 * MIB)))
        elif conn.path == "/head":
            conn.send(with_length(b"ok")[:-2])
        elif conn.path == "/ok":
            quick(conn, head)
        time.sleep(4)
    upload = request("/", "POST", b"Content-Length: 90000000\r\n")
    stages = [b"", GET[:20], GET, GET + GET, request("/head"), upload, upload + bytes(300_000),
              request("/large"), request("/ok"), request("/ok") + bytes(60_000),
              request("/dead"), request("/hangs")]
    settings = " timeout connect 30s\n use-server dead if { path_beg /dead }\n"
    settings += " use-server hangs if { path_beg /hangs }\n"
    others = [f"dead 127.0.0.1:{NOBODY} maxconn 20 weight 0",
              f"hangs 127.0.0.1:{OTHER} maxconn 20 weight 0"]
    with Server(does), Full(OTHER), Proxy(settings, 50, others=others) as proxy:
        clients = []
        for number, sends in enumerate(stages * 8):
            clients.append(connect(receive=4096))
            clients[-1].settimeout(0.01)
            with contextlib.suppress(OSError):
                clients[-1].sendall(sends)
            if number % 2:
                clients[-1].shutdown(socket.SHUT_WR)
        time.sleep(0.3)
        expect_calm(proxy)
        for client in clients:
            client.close()


@case
def queue_beyond_places():
    """5 `timeout queue` holds beyond the places"""
    with Server(slow(3)), Proxy(" timeout queue 400ms\n", words="--places 16"):
        holds = [connect(GET) for _ in range(4)]
        time.sleep(0.1)
        for got, ended, took in together(60, lambda _: ask()):
            expect(status(got) == 503 and 0.35 < took < 1, f"after {took:.2f} s", got, ended)
        for client in holds:
            client.close()


@case
def queue_beyond_places_and_within():
    """5 `timeout queue 600ms`: what was waited beyond the places counts"""
    with Server(slow(3)), Proxy(" timeout queue 600ms\n", 1, "--places 2"):
        clients = [connect(GET)]
        time.sleep(0.1)
        clients.append(connect(GET))
        time.sleep(0.3)
        # The second one's place is free in 300 ms.
        got, ended, took = ask()
        expect(status(got) == 503 and 0.55 < took < 0.8, f"after {took:.2f} s", got, ended)
        for client in clients:
            client.close()


@case
def client_times_beyond_places():
    """5 `timeout client` holds beyond the places, for half a head and for none"""
    with Server(slow(3)), Proxy(" timeout client 400ms\n", words="--places 16"):
        holds = [connect(GET) for _ in range(40)]
        time.sleep(0.1)
        given = together(40, lambda it: ask(GET[:-4] if it % 2 else b""))
        for it, (got, ended, took) in enumerate(given):
            # HAProxy says 408 to who said nothing, too, but for `option http-ignore-probes`.
            wants = either(400 if it % 2 else None, 408)
            right = status(got) == wants and ended == "end" and 0.35 < took < 1
            expect(right, f"after {took:.2f} s", got, ended)
        for client in holds:
            client.close()


@alike(("are reset", True, ""), ("end, with abortonclose", False, " option abortonclose\n"))
def leave_beyond_places(_, resets, settings):
    """5 clients beyond the places that {}: their descriptors are closed"""
    with Server(slow(4)), Proxy(settings + NOTICES, words="--places 16") as proxy:
        holds = [connect(GET) for _ in range(16)]
        time.sleep(0.2)
        before = proxy.files()
        clients = [connect(GET) for _ in range(100)]
        time.sleep(0.3)
        expect(proxy.files() >= before + 100, f"{proxy.files()} files, {before} before")
        for client in clients:
            leave(client, resets)
        expect(proxy.files_become(before, 1), f"{proxy.files()} files, {before} before")
        for client in holds:
            client.close()


@case
def memory_beyond_places():
    """5 clients beyond the places that send their bodies bit by bit cost no memory"""
    with Server(slow(6)), Proxy(words="--places 16") as proxy:
        holds = [connect(GET) for _ in range(40)]
        time.sleep(0.2)
        heads = request("/", "POST", b"Content-Length: 60000\r\n")
        clients = [connect(heads) for _ in range(300)]
        time.sleep(0.3)
        before = proxy.memory()
        for _ in range(500):
            for client in clients:
                client.send(b"x")
        grown = proxy.memory() - before
        for client in holds + clients:
            client.close()
    # HAProxy has a buffer of 16 KiB for each.
    expect(grown < either(400, 6000), f"{grown} KiB more for 500 bytes of each of 300 clients")


@case
def short_of_descriptors():
    """5 silent clients, and descriptors for fewer, cost no processor time"""
    with Server(quick), Proxy(files=200) as proxy:
        # HAProxy's backlog is as long as its limit of clients.
        clients = [connect() for _ in range(either(300, 100))]
        time.sleep(0.2)
        expect_calm(proxy)
        for client in clients:
            client.close()
        expect_next(1)


# 6. Beside each other.


def streams_and_more(conn, head):
    if conn.path == "/stream":
        stream(conn, b"data: 01234567890123", 0.05)
    elif conn.path == "/large":
        says(with_length(bytes(100_000)))(conn, head)
    else:
        digest(conn, head)


@case
def beside_streams():
    """6 a POST of 10 kB and a GET of 100 kB beside 64 event streams"""
    with Server(streams_and_more), Proxy(maxconn=100):
        streams = [connect(request("/stream")) for _ in range(64)]
        time.sleep(0.3)
        for _ in range(8):
            got, ended, took = ask(post(b"x" * 10_000))
            expect_ok(got, ended, hashlib.sha256(b"x" * 10_000).hexdigest().encode())
            expect(took < 0.5, f"a POST after {took:.2f} s")
            got, ended, took = ask(request("/large"))
            expect_ok(got, ended, bytes(100_000))
            expect(took < 0.5, f"a GET after {took:.2f} s")
        for client in streams:
            client.settimeout(1)
            expect(client.recv(65536), "a stream ended")
            client.close()


@case
def beside_dead_servers():
    """6 requests to a dead server and to one that hangs, beside a healthy one"""
    settings = " timeout connect 1s\n retries 2\n use-server dead if { path_beg /dead }\n"
    settings += " use-server hangs if { path_beg /hangs }\n"
    others = [f"dead 127.0.0.1:{NOBODY} maxconn 20 weight 0",
              f"hangs 127.0.0.1:{OTHER} maxconn 20 weight 0"]
    with Server(quick), Full(OTHER), Proxy(settings, others=others):
        dead = [connect(request("/dead" if it % 2 else "/hangs")) for it in range(60)]
        for _ in range(30):
            expect_next(0.3)
            time.sleep(0.02)
        for client in dead:
            client.close()


# 7. Nobody reads what is printed.


@case
def full_pipe():
    """7 standard output is a pipe that nobody reads: serving goes on"""
    reads, writes = os.pipe()
    fcntl.fcntl(writes, fcntl.F_SETFL, os.O_NONBLOCK)
    with contextlib.suppress(BlockingIOError):
        while True:
            os.write(writes, bytes(4096))
    fcntl.fcntl(writes, fcntl.F_SETFL, 0)
    # Each try that fails is noted in the log, so that a window is full soon.
    settings = " timeout connect 1ms\n timeout queue 1m\n retries 999999\n"
    settings += " use-server dead if { path_beg /dead }\n"
    others = [f"dead 127.0.0.1:{NOBODY} maxconn 200 weight 0"]
    try:
        with Server(quick), Proxy(settings, others=others, output=writes):
            clients = []
            for _ in range(60):
                clients.append(connect())
                time.sleep(0.003)
            dead = [connect(request("/dead")) for _ in range(200)]
            time.sleep(3.5)
            for client in clients:
                client.sendall(GET)
            for number, client in enumerate(clients):
                client.settimeout(1)
                got, ended = read_all(client)
                expect(status(got) == 200, f"client {number} of {len(clients)}:", got, ended)
            for client in clients + dead:
                client.close()
    finally:
        os.close(reads)
        os.close(writes)


# 8. The proxy stands still for a while.


def pause(proxy, seconds=0.7):
    os.kill(proxy.pid, signal.SIGSTOP)
    time.sleep(seconds)
    os.kill(proxy.pid, signal.SIGCONT)


TIMES = " timeout client 500ms\n timeout server 500ms\n timeout connect 500ms\n"


@alike(("", "without timeouts"), (TIMES, "longer than the timeouts"))
def stopped_upload(settings, _):
    """8 stopped in the midst of an upload {1}"""
    body = os.urandom(4 * MIB)
    with Server(digest), Proxy(settings) as proxy:
        with connect(request("/", "POST", b"Content-Length: %d\r\n" % len(body))) as client:
            pieces = (body[at:at + MIB // 8] for at in range(0, len(body), MIB // 8))
            thread = send_beside(client, (slowly_one(it, 0.03) for it in pieces))
            time.sleep(0.4)
            pause(proxy)
            got, ended = read_all(client)
        thread.join()
    expect_ok(got, ended, hashlib.sha256(body).hexdigest().encode())


def slowly_one(piece, seconds):
    time.sleep(seconds)
    return piece


@alike(("", "without timeouts"), (TIMES, "longer than the timeouts"))
def stopped_download(settings, _):
    """8 stopped in the midst of a download {1}"""
    body = os.urandom(4 * MIB)

    def does(conn, _):
        conn.send(with_length(body)[:-len(body)])
        for at in range(0, len(body), MIB // 8):
            conn.send(body[at:at + MIB // 8])
            time.sleep(0.03)

    with Server(does), Proxy(settings) as proxy:
        with connect(GET) as client:
            time.sleep(0.4)
            pause(proxy)
            got, ended = read_all(client)
    expect_ok(got, ended, body)


@case
def stopped_wait():
    """8 stopped while one is served and others wait"""
    with Server(slow(0.5)), Proxy(maxconn=1) as proxy:
        clients = [connect(GET) for _ in range(3)]
        time.sleep(0.2)
        pause(proxy)
        for client in clients:
            got, ended = read_all(client)
            expect_ok(got, ended)
            client.close()


# 9. Both ways at once.


def echo(chunked):
    def does(conn, head):
        length = re.search(rb"(?i)\r\ncontent-length: *(\d+)", head).group(1)
        conn.send(CHUNKED if chunked else b"HTTP/1.1 200 OK\r\nContent-Length: %s\r\n\r\n" % length)
        for piece in conn.body(head):
            conn.send(b"%x\r\n%s\r\n" % (len(piece), piece) if chunked else piece)
        if chunked:
            conn.send(b"0\r\n\r\n")
    return does


@alike(("in chunks", True), ("of a known length", False))
def echoed(_, chunked):
    """9 an echo of 24 MiB, {}"""
    body = os.urandom(MIB) * 24
    with Server(echo(chunked)), Proxy():
        with connect(request("/", "POST", b"Content-Length: %d\r\n" % len(body))) as client:
            thread = send_beside(client, [body[at:at + MIB] for at in range(0, len(body), MIB)])
            got, ended = read_all(client)
            thread.join()
    expect_ok(got, ended, body)


# 10. Bytes unread.


@alike(("a second request behind the first", b"GET /2 HTTP/1.1\r\nHost: h\r\n\r\n", 0),
       ("a late CRLF", b"\r\n", 0.1), ("a second request, late", GET, 0.1),
       ("50 kB behind the request", bytes(50_000), 0), ("1 MiB behind the request", bytes(MIB), 0))
def unread(_, behind, pause_before):
    """10 {}: 60,000 bytes of the answer, and then the end"""
    with Server(slow(0.2, with_length(b"x" * 60_000))) as server, Proxy():
        with connect(GET + (b"" if pause_before else behind)) as client:
            if pause_before:
                time.sleep(pause_before)
                client.sendall(behind)
            time.sleep(0.4)
            got, ended = read_all(client)
        expect_ok(got, ended, b"x" * 60_000)
        expect(server.paths == ["/"], "the server got", server.paths)


@case
def unread_slowly():
    """10 a second request, and a client that reads 1 MiB slowly"""
    with Server(says(with_length(b"x" * MIB))), Proxy():
        with connect(GET + GET, 16_384) as client:
            got = b""
            while piece := client.recv(16_384):
                got += piece
                time.sleep(0.02)
    expect_ok(got, "end", b"x" * MIB)


# 11. Small pieces.


def moment():
    return b"%012.6f" % (time.monotonic() % 100_000)


@case
def small_pieces():
    """11 12 bytes each 40 ms: each piece is there within 100 ms"""
    with Server(lambda conn, _: stream(conn, moment, 0.04, 2)), Proxy():
        with connect(GET) as client:
            late, rest = [], b""
            while piece := client.recv(65536):
                now = time.monotonic() % 100_000
                rest += piece
                late += [now - float(it) for it in re.findall(rb"\d{5}\.\d{6}", rest)]
                rest = rest[-30:] if not re.search(rb"\d{5}\.\d{6}", rest) else b""
    expect(len(late) > 40 and max(late) < 0.1, f"{len(late)} pieces, {max(late, default=9):.3f} s")


@alike(("of a known length", b"Content-Length: 600\r\n", False),
       ("in chunks", b"Transfer-Encoding: chunked\r\n", True))
def small_pieces_up(_, fields, chunked):
    """11 an upload {} of 12 bytes each 40 ms: each piece is there within 100 ms"""
    late = []

    def does(conn, head):
        rest = b""
        for piece in conn.body(head):
            now = time.monotonic() % 100_000
            rest += piece
            late.extend(now - float(it) for it in re.findall(rb"\d{5}\.\d{6}", rest))
            rest = rest[len(rest) // 12 * 12:]
        conn.send(ANSWER)
    with Server(does), Proxy(), connect(request("/", "POST", fields)) as client:
        for _ in range(50):
            client.sendall(b"c\r\n%s\r\n" % moment() if chunked else moment())
            time.sleep(0.04)
        if chunked:
            client.sendall(b"0\r\n\r\n")
        got, ended = read_all(client)
    expect_ok(got, ended)
    expect(len(late) == 50 and max(late) < 0.1, f"{len(late)} pieces, {max(late, default=9):.3f} s")


# 12. Who leaves.


@alike(("is reset", True, "", GET, b""), ("ends", False, " option abortonclose\n", GET, b""),
       ("is reset in its body", True, "", post(bytes(9))[:-9], b"x"),
       ("ends in its body", False, "", post(bytes(9))[:-9], b"x"),
       ("sends the rest of its body and ends", False, " option abortonclose\n",
        post(bytes(9))[:-9], bytes(9)),
       ("sends the rest of its body and is reset", True, "", post(bytes(9))[:-9], bytes(9)))
def leaves(_, resets, settings, sends, then):
    """12 a client that {} while it is served frees its slot"""
    def does(conn, head):
        if conn.path == "/next":
            quick(conn, head)
        else:
            time.sleep(3)
    with Server(does), Proxy(settings + NOTICES, 1) as proxy:
        client = connect(sends.replace(b" / ", b" /first "))
        time.sleep(0.3)
        # The proxy is told of both at once.
        os.kill(proxy.pid, signal.SIGSTOP)
        time.sleep(0.05)
        if then:
            client.sendall(then)
        leave(client, resets)
        os.kill(proxy.pid, signal.SIGCONT)
        time.sleep(0.1)
        expect_next(0.6, request("/next"))


@case
def leaves_amid_its_upload():
    """12 a client that is reset amid 300 kB that its server doesn't read: that one is told, too"""
    told = []

    def does(conn, _):
        poll = select.poll()
        poll.register(conn.sock, select.POLLRDHUP)
        start = time.time()
        if poll.poll(3000):
            told.append(time.time() - start)
    with Server(does, head=False) as server, Proxy(NOTICES, 1):
        client = connect(request("/", "POST", b"Content-Length: 900000\r\n", bytes(300_000)))
        time.sleep(0.3)
        leave(client, True)
        time.sleep(0.5)
        expect(told, f"half a second later {len(server.open)} request is at the server")


@alike(("is reset", True), ("ends", False))
def leaves_in_its_answer(_, resets):
    """12 a client that {} amid its answer frees its slot"""
    def does(conn, head):
        if conn.path == "/next":
            return quick(conn, head)
        return stream(conn, b"0123456789", 0.05, 4)
    with Server(does), Proxy(maxconn=1):
        client = connect(request("/first"))
        client.recv(1000)
        leave(client, resets)
        time.sleep(0.2)
        expect_next(0.6, request("/next"))


# 13. Heads in small segments.


def long_head(size, fields):
    """A request's head of so many bytes, in so many fields beside Host."""
    front = b"GET / HTTP/1.1\r\nHost: h\r\n"
    left = size - len(front) - 2
    lines = b""
    for it in range(fields):
        line = left // (fields - it)
        lines += b"X-%02d: " % it + b"a" * (line - 8) + b"\r\n"
        left -= line
    return front + lines + b"\r\n"


@alike(("one field", long_head(15_000, 1)), ("60 fields", long_head(15_000, 60)),
       ("empty lines before it", b"\r\n" * 7400 + GET))
def small_segments(_, head):
    """13 a head of 15 kB in segments of 2 bytes, {}"""
    with Server(quick), Proxy() as proxy:
        with connect() as client:
            before = proxy.took()
            for at in range(0, len(head) - 2, 2):
                client.send(head[at:at + 2])
                time.sleep(0.0001)
            took = (proxy.took() - before) / (len(head) // 2)
            client.sendall(head[len(head) - 2 - len(head) % 2:])
            got, ended = read_all(client)
    expect_ok(got, ended)
    expect(took < 0.000_05, f"{took * 1_000_000:.0f} us of processor time a segment")


# 15. Expect.

EXPECTS = b"Expect: 100-continue\r\nContent-Length: 6\r\n"


@case
def expects_with_body():
    """15 `Expect: 100-continue` with its body in one segment"""
    with Server(digest), Proxy():
        got, ended, _ = ask(request("/", "POST", EXPECTS, b"abcdef"))
    taken = Taken(got)
    # HAProxy leaves the 100 to the server, which is free to send none.
    right = taken.interim == either([100], []) and taken.status == 200 and ended == "end"
    expect(right and taken.body == hashlib.sha256(b"abcdef").hexdigest().encode(), got, ended)


@case
def expects_first():
    """15 `Expect: 100-continue`, and the body once the 100 is there"""
    def does(conn, head):
        if b"100-continue" in head:
            conn.send(b"HTTP/1.1 100 Continue\r\n\r\n")
        digest(conn, head)
    with Server(does), Proxy():
        with connect(request("/", "POST", EXPECTS)) as client:
            first = client.recv(1000)
            expect(first == b"HTTP/1.1 100 Continue\r\n\r\n", first)
            client.sendall(b"abcdef")
            got, ended = read_all(client)
    expect_ok(got, ended, hashlib.sha256(b"abcdef").hexdigest().encode())


@case
def expects_and_is_refused():
    """15 `Expect: 100-continue`, and a server that says 417 at once and closes"""
    with Server(early(b"417 Expectation Failed", False)), Proxy(maxconn=1):
        with connect(request("/", "POST", EXPECTS), seconds=1) as client:
            got, ended = read_all(client)
    taken = Taken(got)
    # HAProxy waits for the body yet.
    right = (taken.status, taken.body, ended) == (417, b"early", either("end", "open"))
    expect(right, got, ended)


# 16. More.

TRAILERS = b"0;last\r\nX-Sum: 1\r\nX-More: 2\r\n\r\n"
TEXT = b"The quick brown fox jumps over the lazy dog. "


@case
def chunks_up():
    """16 a request in chunks, byte by byte, with extensions and trailers"""
    text = in_chunks(TEXT * 4, 7, b";name=\"value\"") + TRAILERS
    with Server(digest), Proxy(), connect() as client:
        head = request("/", "POST", b"Transfer-Encoding: chunked\r\n")
        by_bytes(client, head + text, 0.0002)
        got, ended = read_all(client)
    expect_ok(got, ended, hashlib.sha256(TEXT * 4).hexdigest().encode())


@case
def chunks_down():
    """16 an answer in chunks, byte by byte, with extensions and trailers"""
    text = CHUNKED + in_chunks(TEXT * 4, 7, b" ; name") + TRAILERS
    with Server(lambda conn, _: by_bytes(conn.sock, text, 0.0002)), Proxy():
        got, ended, _ = ask()
    expect_ok(got, ended, TEXT * 4)


@case
def many_chunks():
    """16 30,000 bytes in chunks of one byte, both ways"""
    text = in_chunks(b"z" * 30_000, 1) + b"0\r\n\r\n"

    def does(conn, head):
        came = sum(map(len, conn.body(head)))
        conn.send(CHUNKED + (text if came == 30_000 else b"0\r\n\r\n"))
    with Server(does), Proxy():
        got, ended, _ = ask(request("/", "POST", b"Transfer-Encoding: chunked\r\n", text))
    expect_ok(got, ended, b"z" * 30_000)


@case
def head_answer():
    """16 HEAD: the length is told, and no body comes"""
    with Server(says(b"HTTP/1.1 200 OK\r\nContent-Length: 1000\r\n\r\n")), Proxy():
        got, ended, took = ask(request(method="HEAD"))
    taken = Taken(got, True)
    right = taken.status == 200 and taken.whole and taken.fields.get("content-length") == "1000"
    expect(right and ended == "end" and took < 1, got, ended)


@alike((204, b""), (304, b""), (304, b"Content-Length: 77\r\n"), (204, b"X-A: b\r\n"))
def bare_answer(number, fields):
    """16 a {} with the fields {!r}, of a server that stays open"""
    def does(conn, _):
        conn.send(b"HTTP/1.1 %d X\r\n%s\r\n" % (number, fields))
        conn.wait(3)
    with Server(does), Proxy(maxconn=1):
        got, ended, took = ask()
        taken = Taken(got)
        right = taken.status == number and taken.whole and ended == "end" and took < 1
        expect(right, f"after {took:.2f} s", got, ended)


@case
def old_client_chunks():
    """16 a client of 1.0, and an answer in chunks: it gets the data"""
    with Server(says(CHUNKED + in_chunks(TEXT, 7) + TRAILERS)), Proxy():
        got, ended, _ = ask(b"GET / HTTP/1.0\r\n\r\n")
    expect_ok(got, ended, TEXT)
    # HAProxy hands the chunks on.
    expect(HAPROXY or "transfer-encoding" not in Taken(got).fields, got)


@case
def old_server():
    """16 a server of 1.0, whose answer goes on to the end"""
    with Server(says(b"HTTP/1.0 200 OK\r\n\r\n" + TEXT)), Proxy():
        got, ended, _ = ask()
    expect_ok(got, ended, TEXT)


@case
def to_the_end():
    """16 an answer of 1 MiB to the end of the connection, slowly"""
    def does(conn, _):
        conn.send(b"HTTP/1.1 200 OK\r\n\r\n")
        for _ in range(16):
            conn.send(b"x" * 65536)
            time.sleep(0.02)
    with Server(does), Proxy():
        got, ended, _ = ask()
    expect_ok(got, ended, b"x" * MIB)


HINTS = b"HTTP/1.1 103 Early Hints\r\nLink: </a>; rel=preload\r\n\r\n"


@case
def hints_in_pieces():
    """16 a 103 and an answer, byte by byte: the 103 comes at once"""
    def does(conn, _):
        by_bytes(conn.sock, HINTS, 0.001)
        time.sleep(0.5)
        by_bytes(conn.sock, ANSWER, 0.001)
    with Server(does), Proxy(), connect(GET) as client:
        start = time.time()
        first = client.recv(1000)
        took = time.time() - start
        got, ended = read_all(client)
    expect(status(first) == 103 and b"</a>" in first and took < 0.4, f"{took:.2f} s", first)
    expect_ok(first + got, ended)


@alike((8, 200), (9, either(502, 200)))
def many_hints(count, wants):
    """16 {} interim answers before the answer: {}"""
    with Server(says(HINTS * count + ANSWER)), Proxy():
        got, ended, _ = ask()
    taken = Taken(got)
    if wants == 200:
        expect(taken.interim == [103] * count, taken.interim)
        expect_ok(got, ended)
    else:
        # As its client took heads before, it may be cut off in place of a 502.
        right = taken.status in (502, None) and ended == "end" and b"ok" not in taken.body
        expect(right, taken.interim, got, ended)


@alike(("silence", b"", 2), ("its end", b"", 0), ("what is no head", b"HELLO\r\n\r\n", 2))
def hints_and_no_answer(_, then, seconds):
    """16 a 103, and then {}: nothing more is written, and the connection ends"""
    def does(conn, _):
        conn.send(HINTS)
        time.sleep(0.2)
        conn.send(then)
        conn.wait(seconds)
    with Server(does), Proxy(" timeout server 600ms\n"):
        got, ended, took = ask()
    taken = Taken(got)
    # HAProxy tells its client 502 or 504 behind the 103.
    right = either(got == HINTS, taken.status in (502, 504)) and taken.interim == [103]
    expect(right and ended == "end" and took < 1.2, f"after {took:.2f} s", got, ended)


@case
def hints_of_16_kb():
    """16 eight interim answers of 2 kB each and an answer's head of 10 kB"""
    text = (HINTS[:-2] + b"X-A: " + b"a" * 2000 + b"\r\n\r\n") * 8
    text += ANSWER.replace(b"\r\n\r\n", b"\r\nX-B: " + b"b" * 10_000 + b"\r\n\r\n")
    with Server(says(text)), Proxy():
        got, ended, _ = ask()
    expect(Taken(got).interim == [103] * 8, Taken(got).interim)
    expect_ok(got, ended)


@case
def hints_for_old_client():
    """16 a client of 1.0 gets no interim answer"""
    with Server(says(HINTS * 2 + ANSWER)), Proxy():
        got, ended, _ = ask(b"GET / HTTP/1.0\r\n\r\n")
    # HAProxy hands them on.
    expect(Taken(got).interim == either([], [103, 103]), got)
    expect_ok(got, ended)


@case
def switching():
    """16 a 101 that nobody asked for is no answer"""
    with Server(says(b"HTTP/1.1 101 Switching Protocols\r\nUpgrade: x\r\n\r\n")), Proxy():
        got, ended, took = ask()
    expect(status(got) == either(502, 502) and ended == "end" and took < 1, got, ended)


def answer_head(size):
    """An answer of `ok` whose head has so many bytes."""
    front = b"HTTP/1.1 200 OK\r\nContent-Length: 2\r\nX-Long: "
    return front + b"a" * (size - len(front) - 4) + b"\r\n\r\nok"


# HAProxy's buffer has 16 KiB, of which one is for what it adds.
@alike((15_000, 200), (16_384, either(200, 502)), (16_385, 502), (100_000, 502))
def long_answer_head(size, wants):
    """16 an answer's head of {} bytes: {}"""
    with Server(says(answer_head(size))), Proxy(maxconn=1):
        for _ in range(3):
            got, ended, took = ask()
            expect(status(got) == wants and took < 1, f"after {took:.2f} s", got, ended)
            if wants == 200:
                expect_ok(got, ended)


@alike((15_000, 200), (16_384, either(200, 400)), (16_385, 400), (100_000, 400))
def long_request_head(size, wants):
    """16 a request's head of {} bytes: {}"""
    head = long_head(size, 8)
    with Server(quick), Proxy(maxconn=1):
        for cut in (size, 10, 1):
            with connect(head[:-cut]) as client:
                time.sleep(0.05)
                with contextlib.suppress(OSError):
                    client.sendall(head[-cut:])
                got, ended = read_all(client)
            if wants == 200:
                expect_ok(got, ended)
            else:
                expect(status(got) in (wants, either(0, 431)) and ended != "open", got, ended)


@case
def long_head_with_body():
    """16 a request's head of 16,384 bytes, and a body of 100 kB right behind it"""
    size = either(16_384, 15_000)
    front = b"POST / HTTP/1.1\r\nHost: h\r\nContent-Length: 100000\r\nX-A: "
    head = front + b"a" * (size - len(front) - 4) + b"\r\n\r\n"
    with Server(digest), Proxy():
        got, ended, _ = ask(head + b"x" * 100_000)
    expect_ok(got, ended, hashlib.sha256(b"x" * 100_000).hexdigest().encode())


@case
def reads_nothing():
    """16 a client that reads nothing for `timeout client`: its slot is free"""
    def does(conn, head):
        if conn.path == "/next":
            return quick(conn, head)
        return says(with_length(bytes(60 * MIB)))(conn, head)
    with Server(does), Proxy(" timeout client 500ms\n", 1) as proxy:
        with connect(request("/first"), 4096) as client:
            time.sleep(0.2)
            got, ended, took = ask(request("/next"))
            expect_ok(got, ended)
            expect(0.2 < took < 1.5, f"the next one after {took:.2f} s")
            got, ended = read_all(client)
            expect(ended != "open" and len(got) < 30 * MIB, len(got), ended)
        expect(proxy.files_become(proxy.at_first), proxy.told())


@case
def refusal_is_not_read():
    """16 half a head and then silence, `timeout client`: its descriptor is closed"""
    with Proxy(" timeout client 300ms\n") as proxy:
        with connect(GET[:-3]):
            expect(proxy.files_become(proxy.at_first, 3.5), proxy.told())


@case
def slow_head():
    """16 a head a byte each 100 ms, `timeout client 500ms`: the time is over behind the last one"""
    with Server(quick), Proxy(" timeout client 500ms\n"):
        with connect() as client:
            thread = send_beside(client, slowly(b"G", 15, 0.1))
            start = time.time()
            got, ended = read_all(client)
            took = time.time() - start
        thread.join()
    right = status(got) == either(400, 408) and ended == "end" and 1.8 < took < 2.5
    expect(right, f"after {took:.2f} s", got, ended)


@case
def server_reads_nothing():
    """16 a server that accepts, and neither reads 8 MiB nor says a word, `timeout server 500ms`"""
    with Server(lambda conn, _: time.sleep(3), head=False), Proxy(" timeout server 500ms\n", 1):
        with connect(request("/", "POST", b"Content-Length: %d\r\n" % (8 * MIB))) as client:
            thread = send_beside(client, [bytes(MIB)] * 8)
            start = time.time()
            got, ended = read_all(client)
            took = time.time() - start
        thread.join()
    # HAProxy may say nothing.
    right = status(got) in either((502,), (None, 504)) and 0.4 < took < 1.6 and ended != "open"
    expect(right, f"after {took:.2f} s", got, ended)


@case
def slow_upload_short_server_time():
    """16 an upload that lasts longer than `timeout server` is not the server's fault"""
    with Server(digest), Proxy(" timeout server 400ms\n timeout client 2s\n"):
        body = b"x" * 1000
        with connect(request("/", "POST", b"Content-Length: 2000\r\n") + body) as client:
            time.sleep(1)
            client.sendall(body)
            got, ended = read_all(client)
    # HAProxy blames the server: 504.
    if HAPROXY:
        return expect(status(got) == 504, got, ended)
    return expect_ok(got, ended, hashlib.sha256(body * 2).hexdigest().encode())


@case
def slow_download_short_server_time():
    """16 a client that reads nothing for longer than `timeout server` is not its fault"""
    body = bytes(20 * MIB)
    with Server(says(with_length(body))), Proxy(" timeout server 400ms\n timeout client 3s\n"):
        with connect(GET, 65536) as client:
            time.sleep(1.2)
            got, ended = read_all(client)
    expect_ok(got, ended, body)


@case
def slow_server_short_client_time():
    """16 a server that answers after longer than `timeout client` is not its client's fault"""
    with Server(slow(1)), Proxy(" timeout client 400ms\n timeout server 3s\n"):
        got, ended, _ = ask(post(b"abc"))
    expect_ok(got, ended)


@case
def byte_by_byte():
    """16 a server that sends a byte each 10 ms, `timeout server 300ms`"""
    text = with_length(b"x" * 60)
    with Server(lambda conn, _: by_bytes(conn.sock, text, 0.01)):
        with Proxy(" timeout server 300ms\n"):
            got, ended, _ = ask()
    # In HAProxy an answer's head has to be whole within that time.
    if HAPROXY:
        return expect(status(got) == 504, got, ended)
    return expect_ok(got, ended, b"x" * 60)


HALVES = {
    "of a known length": with_length(b"x" * 100_000)[:-50_000],
    "in chunks": CHUNKED + in_chunks(b"x" * 50_000, 5000) + b"1388\r\nhalf",
}


@alike(*[(how, ends) for how in HALVES for ends in ("resets", "ends")])
def half_an_answer(how, ends):
    """16 half an answer {}, and the server {}: the client can tell"""
    def does(conn, _):
        conn.send(HALVES[how])
        time.sleep(0.2)
        if ends == "resets":
            conn.reset()
    with Server(does), Proxy(maxconn=1):
        for _ in range(3):
            got, ended, took = ask()
            taken = Taken(got)
            expect(took < 1 and ended != "open", f"after {took:.2f} s", got, ended)
            expect(taken.status == 200 and not taken.whole, got, ended)
            expect(len(taken.body) >= 50_000, f"{len(taken.body)} bytes came", ended)


@case
def half_to_the_end():
    """16 half an answer to the end of the connection, and the server resets"""
    def does(conn, _):
        conn.send(b"HTTP/1.1 200 OK\r\n\r\n" + b"x" * 50_000)
        time.sleep(0.2)
        conn.reset()
    with Server(does), Proxy(maxconn=1):
        got, ended, took = ask()
        taken = Taken(got)
        expect(took < 1 and ended != "open", f"after {took:.2f} s", got, ended)
        expect(taken.status == 200 and len(taken.body) >= 50_000, got, ended)
        # No framing of the proxy's own may say that the answer was whole.
        expect("content-length" not in taken.fields and not got.endswith(b"\r\n0\r\n\r\n"), got)


@case
def reset_behind_its_answer():
    """16 a server that resets right behind a whole answer of 100 kB: the client gets it"""
    def does(conn, _):
        conn.send(with_length(b"x" * 100_000))
        conn.reset()
    with Server(does), Proxy(maxconn=1):
        for _ in range(10):
            got, ended, _ = ask()
            expect_ok(got, ended, b"x" * 100_000)


@alike((1,), (2,), (64,))
def loops(count):
    """16 {} loops: 400 clients with 5 kB each way"""
    if HAPROXY:
        return
    with Server(digest), Proxy(maxconn=50, words=f"--loops {count}"):
        answers = ask_at_once(400, 30, post(b"x" * 5000))
    expect(answers == {200: 400}, "answers", answers)


@case
def closed_output():
    """16 standard output is a pipe that nobody has open: serving goes on"""
    reads, writes = os.pipe()
    os.close(reads)
    settings = " timeout connect 1ms\n timeout queue 1m\n retries 999999\n"
    settings += " use-server dead if { path_beg /dead }\n"
    others = [f"dead 127.0.0.1:{NOBODY} maxconn 200 weight 0"]
    with Server(quick), Proxy(settings, others=others, output=writes):
        dead = [connect(request("/dead")) for _ in range(200)]
        for _ in range(6):
            time.sleep(0.5)
            expect_next(1)
        for client in dead:
            client.close()
    os.close(writes)


@case
def hanging_connect():
    """16 a connect that hangs: 503 after `timeout connect` and the retries"""
    with Full(), Proxy(" timeout connect 400ms\n retries 1\n timeout queue 4s\n"):
        got, ended, took = ask()
    right = status(got) == 503 and 0.75 < took < 2
    expect(right, f"after {took:.2f} s", got, ended)


@alike(("is reset", True, NOTICES), ("ends, with abortonclose", False, " option abortonclose\n"))
def leaves_a_hanging_connect(_, resets, settings):
    """16 a client that {} while the connect hangs: its slot is free"""
    with Full(), Proxy(settings + " timeout connect 4s\n retries 0\n", 1) as proxy:
        client = connect(GET)
        time.sleep(0.2)
        before = proxy.files()
        leave(client, resets)
        expect(proxy.files_become(before - 2, 1), f"{proxy.files()} files, {before} before")


@alike((10, False), (10, True), (100, False), (100, True))
def large_body(size, up):
    """16 {} MiB with a checksum, upwards: {}"""
    seed = os.urandom(MIB)
    found = hashlib.sha256()
    for _ in range(size):
        found.update(seed)
    wants = found.hexdigest()

    def does(conn, head):
        if up:
            return digest(conn, head)
        conn.send(b"HTTP/1.1 200 OK\r\nContent-Length: %d\r\n\r\n" % (size * MIB))
        for _ in range(size):
            conn.send(seed)
        return None
    with Server(does), Proxy():
        if up:
            with connect(request("/", "POST", b"Content-Length: %d\r\n" % (size * MIB))) as client:
                for _ in range(size):
                    client.sendall(seed)
                got, ended = read_all(client)
        else:
            got, ended, _ = ask()
    taken = Taken(got)
    came = taken.body.decode() if up else hashlib.sha256(taken.body).hexdigest()
    expect(came == wants and ended == "end", f"{len(taken.body)} bytes", got, ended)


def forked(does):
    """Another process that does this."""
    pid = os.fork()
    if pid == 0:
        with contextlib.suppress(BaseException):
            does()
        os._exit(0)
    return pid


def serve_large():
    """Answers as fast as it can, without an end, but for /small."""
    listener = socket.create_server(("127.0.0.1", SERVER), backlog=128)

    def serve(sock):
        head = Conn(sock).head()
        with contextlib.suppress(OSError):
            sock.sendall(ANSWER if b"/small" in head else b"HTTP/1.1 200 OK\r\n\r\n")
            while b"/small" not in head:
                sock.sendall(bytes(MIB))
        sock.close()
    while True:
        sock, _ = listener.accept()
        threading.Thread(target=serve, args=[sock], daemon=True).start()


def swallow():
    with connect(request("/large")) as client:
        while client.recv(MIB):
            pass


@case
def beside_large_bodies():
    """16 small requests beside two bodies that stream as fast as they can, in one loop"""
    pids = [forked(serve_large)]
    time.sleep(0.3)
    try:
        with Proxy(words="--loops 1"):
            pids += [forked(swallow), forked(swallow)]
            time.sleep(0.5)
            times = []
            until = time.time() + 3
            while time.time() < until:
                got, ended, took = ask(request("/small"))
                expect_ok(got, ended)
                times.append(took)
                time.sleep(0.02)
    finally:
        for pid in pids:
            os.kill(pid, signal.SIGKILL)
            os.waitpid(pid, 0)
    mean = sum(times) / len(times)
    expect(mean < 0.05, f"{mean * 1000:.1f} ms a request, {max(times) * 1000:.1f} at most")


def anything(conn, head):
    if conn.path == "/slow":
        slow(0.3)(conn, head)
    elif conn.path == "/large":
        says(with_length(bytes(2 * MIB)))(conn, head)
    elif conn.path == "/trickle":
        stream(conn, b"x", 0.02, 1)
    else:
        quick(conn, head)


STAGES = [b"", GET[:20], request("/slow"), request("/large"), request("/trickle"),
          post(bytes(100_000), "/slow")[:-1], post(b"abc", "/slow"), GET + GET,
          request("/slow", "POST", EXPECTS), b"\0\1\2", request("/", "POST", EXPECTS) + b"abc"]


@alike(("", "without abortonclose"), (" option abortonclose\n", "with it"))
def leave_in_every_stage(settings, _):
    """16 400 clients leave in every stage, {1}: all slots and descriptors are back"""
    with Server(anything) as server, Proxy(settings + NOTICES, 4, "--places 64") as proxy:
        for round_ in range(2):
            clients = []
            for it in range(200):
                clients.append((connect(receive=8192), it))
                with contextlib.suppress(OSError):
                    clients[-1][0].settimeout(0.02)
                    clients[-1][0].sendall(STAGES[it % len(STAGES)])
                if it % 3 == 0:
                    client, _ = clients.pop(0)
                    leave(client, it % 2 == 0)
            time.sleep(0.1 * round_)
            for client, it in clients:
                leave(client, it % 2 == 0)
        expect(proxy.files_become(proxy.at_first, 10), proxy.told(),
               f"{len(server.open)} connections at the server")
        start = time.time()
        for got, ended, took in together(8, lambda _: ask(request("/slow"))):
            expect_ok(got, ended)
        took = time.time() - start
        expect(took < 1.2, f"8 clients at 4 slots took {took:.2f} s")


@case
def slow_readers():
    """16 30 clients that take 1 kB each 10 ms of 5 MiB: none is cut, others are served"""
    body = os.urandom(MIB) * 5

    def does(conn, head):
        (says(with_length(body)) if conn.path == "/large" else quick)(conn, head)
    settings = " timeout client 1s\n timeout server 1s\n"
    with Server(does), Proxy(settings, 60) as proxy:
        clients = [connect(request("/large"), 8192) for _ in range(30)]
        got = [b""] * 30
        before, until, slowest = proxy.took(), time.time() + 3, 0
        while time.time() < until:
            for it, client in enumerate(clients):
                piece = client.recv(1000)
                expect(piece, f"it was cut after {len(got[it])} bytes")
                got[it] += piece
            _, _, took = ask()
            slowest = max(slowest, took)
            time.sleep(0.01)
        took = proxy.took() - before
        for it in got:
            front = with_length(body).split(b"\r\n\r\n", 1)[1]
            came = it.split(b"\r\n\r\n", 1)[1]
            expect(front.startswith(came), "other bytes came")
        for client in clients:
            client.close()
    expect(slowest < 0.3, f"a request beside them took {slowest:.2f} s")
    expect(took < 1, f"{took:.2f} s of processor time in 3 s")


@case
def counted_clients():
    """16 `--requests 40`: status 0 after 40 clients"""
    if HAPROXY:
        return
    with Server(quick), Proxy(words="--requests 40") as proxy:
        for number in range(39):
            if number % 4 == 0:
                leave(connect(GET[:10]), number % 8 == 0)
            else:
                got, ended, _ = ask()
                expect_ok(got, ended)
        time.sleep(0.2)
        expect(proxy.process.poll() is None, "it ended before the last client")
        got, ended, _ = ask()
        expect_ok(got, ended)
        expect(proxy.end() == 0, f"status {proxy.status}")


@case
def counted_client_with_bytes_unread():
    """16 `--requests 1`, and a second request behind: the answer is whole"""
    if HAPROXY:
        return
    with Server(slow(0.2, with_length(b"x" * 300_000))), Proxy(words="--requests 1") as proxy:
        with connect(GET + GET, 8192) as client:
            time.sleep(0.5)
            got, ended = read_all(client)
        expect(proxy.end() == 0, f"status {proxy.status}")
    taken = Taken(got)
    expect(taken.whole and len(taken.body) == 300_000, f"{len(taken.body)} bytes", ended)


@case
def half_closed():
    """16 a client that ends its side behind its request, without abortonclose: it is answered"""
    with Server(slow(0.3)), Proxy():
        with connect(GET) as client:
            client.shutdown(socket.SHUT_WR)
            got, ended = read_all(client)
    expect_ok(got, ended)


@case
def second_request_stays():
    """16 what comes behind a request never reaches a server"""
    smuggled = b"GET /smuggled HTTP/1.1\r\nHost: h\r\n\r\n"
    with Server(quick) as server, Proxy(maxconn=1):
        for first in (GET, post(b"abc"), request("/", "POST", b"Transfer-Encoding: chunked\r\n",
                                                 b"3\r\nabc\r\n0\r\n\r\n")):
            got, ended, _ = ask(first + smuggled)
            expect_ok(got, ended)
        expect(server.paths == ["/"] * 3, server.paths)


@case
def more_than_its_length():
    """16 an answer that goes on behind its length: the client gets the length"""
    with Server(says(ANSWER + b"HTTP/1.1 200 OK\r\nContent-Length: 5\r\n\r\nwrong")), Proxy():
        got, ended, _ = ask()
    expect_ok(got, ended)


@case
def kept_open():
    """16 a server that keeps its connection after its answer: the slot is free at once"""
    def does(conn, head):
        quick(conn, head)
        conn.wait(3)
    with Server(does), Proxy(maxconn=1):
        for _ in range(5):
            got, ended, took = ask()
            expect_ok(got, ended)
            expect(took < 0.5, f"after {took:.2f} s")


BAD = {
    "two lengths": b"Content-Length: 3\r\nContent-Length: 4\r\n",
    "a negative length": b"Content-Length: -3\r\n",
    "a length with a plus": b"Content-Length: +3\r\n",
    "an unknown coding": b"Transfer-Encoding: gzip\r\n",
    "a blank before a colon": b"Content-Length : 3\r\n",
}


@alike(*[(it,) for it in BAD])
def bad_framing(name):
    """16 a request with {}: 400, and no server is asked"""
    with Server(quick) as server, Proxy():
        got, ended, took = ask(request("/", "POST", BAD[name], b"abc"))
        wants = (400,) if not HAPROXY or name != "an unknown coding" else (400, 422, 501)
        expect(status(got) in wants and took < 1, f"after {took:.2f} s", got, ended)
        expect(server.paths == [], "the server got", server.paths)


@case
def refused_with_much_behind():
    """16 a head that is refused, with 2 MiB behind that the client sends before it reads"""
    with Server(quick) as server, Proxy():
        for _ in range(5):
            got, ended, took = ask(request("/", "POST", BAD["two lengths"], bytes(2 * MIB)))
            expect(status(got) == 400 and took < 3 and ended != "open", got, ended)
        expect(server.paths == [], "the server got", server.paths)


@case
def length_and_chunks():
    """16 a length beside chunks: 400, or the chunks alone are handed on"""
    fields = b"Content-Length: 3\r\nTransfer-Encoding: chunked\r\n"
    with Server(digest), Proxy():
        got, ended, _ = ask(request("/", "POST", fields, b"5\r\nabcde\r\n0\r\n\r\n"))
    if not HAPROXY:
        return expect(status(got) == 400 and ended == "end", got, ended)
    return expect_ok(got, ended, hashlib.sha256(b"abcde").hexdigest().encode())


@case
def bad_chunk_late():
    """16 a chunk that is none, once the server has the request: 400, and the slot is free"""
    with Server(quick), Proxy(maxconn=1):
        with connect(request("/", "POST", b"Transfer-Encoding: chunked\r\n")) as client:
            client.sendall(b"3\r\nabc\r\n")
            time.sleep(0.2)
            client.sendall(b"zz\r\n")
            got, ended = read_all(client)
        expect(status(got) == 400 and ended != "open", got, ended)
        expect_next(0.5)


@case
def bad_answer_chunk():
    """16 an answer's chunk that is none: the client can tell"""
    text = CHUNKED + in_chunks(b"x" * 100, 10) + b"zz\r\nmore\r\n0\r\n\r\n"

    def does(conn, _):
        conn.send(text[:80])
        time.sleep(0.2)
        conn.send(text[80:])
        conn.wait(3)
    with Server(does), Proxy(maxconn=1):
        got, ended, took = ask()
        taken = Taken(got) if b"zz" not in got else None
        right = taken and (taken.status == 502 or not taken.whole)
        expect(right and ended != "open" and took < 1, f"after {took:.2f} s", got, ended)
        expect(b"more" not in got, got)


@case
def slots_are_kept():
    """16 a server never has more requests at once than its limit, while clients leave"""
    def does(conn, head):
        quick(conn, head) if conn.path == "/quick" else slow(0.02)(conn, head)
    with Server(does, counts=True) as server, Proxy(" option abortonclose\n", 4, "--places 64"):
        until = time.time() + 2

        def come_and_go(number):
            while time.time() < until:
                client = connect(GET)
                time.sleep(0.001 * (number % 17))
                leave(client, number % 2 == 0)
        together(40, come_and_go)
        expect(server.most <= 4, f"{server.most} connections at once")


@case
def silent_for_a_while():
    """16 told everything, a client that neither closes nor reads on: its descriptor is closed"""
    with Server(quick), Proxy() as proxy:
        clients = [connect(GET) for _ in range(20)]
        for client in clients:
            client.recv(1000)
        expect(proxy.files_become(proxy.at_first), proxy.told())
        for client in clients:
            client.close()


@case
def storm():
    """16 3,000 clients that come and go at once, and then one that is served"""
    with Server(quick), Proxy() as proxy:
        for number in range(3000):
            client = connect(GET if number % 3 == 0 else b"")
            leave(client, number % 2 == 0)
        expect_next(3)
        expect(proxy.files_become(proxy.at_first), proxy.told())


@case
def odd_line_ends():
    """16 empty lines before the request, and line feeds alone"""
    with Server(quick), Proxy():
        got, ended, _ = ask(b"\r\n\r\nGET / HTTP/1.1\nHost: h\n\n")
    # HAProxy takes one empty line before a request.
    expect(status(got) == either(200, status(got)) and ended == "end", got, ended)


@case
def trailing_hints_in_upload():
    """16 a 103 amid an upload comes before the upload's end"""
    def does(conn, head):
        conn.send(HINTS)
        digest(conn, head)
    with Server(does), Proxy(), connect(request("/", "POST", b"Content-Length: 6\r\n")) as client:
        client.sendall(b"abc")
        first = client.recv(1000)
        client.sendall(b"def")
        got, ended = read_all(client)
    expect(status(first) == 103, first)
    expect_ok(first + got, ended, hashlib.sha256(b"abcdef").hexdigest().encode())


@case
def queue_order_with_leavers():
    """16 of 40 that wait every second one leaves: the others are served, and soon"""
    with Server(slow(0.02)), Proxy(" option abortonclose\n", 1) as proxy:
        clients = [connect(GET) for _ in range(40)]
        time.sleep(0.05)
        for client in clients[1::2]:
            leave(client, False)
        start = time.time()
        for client in clients[::2]:
            got, ended = read_all(client)
            expect_ok(got, ended)
            client.close()
        expect(time.time() - start < 1.5, f"it took {time.time() - start:.2f} s")
        expect(proxy.files_become(proxy.at_first), proxy.told())


def tried(function):
    """What was seen in place of what should be, three times in a row, since other work on the machine may come between a
    client and its time; nothing where it was right before."""
    told = None
    for _ in range(3):
        try:
            return function()
        except (Seen, OSError, ValueError, LookupError) as error:
            told = str(error) if isinstance(error, Seen) else repr(error)
    return told


def main():
    files = min(20_000, resource.getrlimit(resource.RLIMIT_NOFILE)[1])
    resource.setrlimit(resource.RLIMIT_NOFILE, (files, files))
    failed = count = 0
    for function in CASES:
        name = function.__doc__
        if not re.search(os.environ.get("ONLY", ""), name):
            continue
        count += 1
        if told := tried(function):
            failed += 1
            print(f"FAILED  {name}: {told}", flush=True)
        else:
            print("ok      " + name, flush=True)
    print(f"{count} cases, {failed} failures")
    sys.exit(1 if failed else 0)


main()
