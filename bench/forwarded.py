#!/usr/bin/env python3
"""forwarded.py PROGRAM FOLDER: servers are told whose requests they get (`run --forwarded-for`).

Starts PROGRAM before a server of this script, and tries it on real sockets. Where `haproxy` is on the path, the
fields that a server gets are compared with those that it gets through HAProxy with `option forwardfor`. Prints a
line a case and `N of M`, and exits with 1 where one failed."""
import collections
import os
import shutil
import socket
import struct
import subprocess
import sys
import threading
import time

PROGRAM, FOLDER = sys.argv[1:3]
PROXY, SERVER, OTHER = 18500, 18501, 18502
os.makedirs(FOLDER, exist_ok=True)
CASES = []
# The heads and bodies that came to the server, by their targets.
SEEN = collections.defaultdict(list)
LOCK = threading.Lock()
SLOW = [0.0]


def case(function):
    CASES.append(function)
    return function


def whole(client):
    """A request's head, and its body."""
    data = b""
    while b"\r\n\r\n" not in data:
        got = client.recv(65536)
        if not got:
            return None
        data += got
    head, body = data.split(b"\r\n\r\n", 1)
    lower = head.lower()
    length = int(lower.split(b"\r\ncontent-length:")[1].split(b"\r\n")[0]) if b"\r\ncontent-length:" in lower else 0
    chunks = b"\r\ntransfer-encoding:" in lower
    while len(body) < length or chunks and not body.endswith(b"0\r\n\r\n"):
        got = client.recv(65536)
        if not got:
            break
        body += got
    return head, body


def serve_one(client):
    with client:
        try:
            came = whole(client)
            if came is None:
                return
            head, body = came
            with LOCK:
                SEEN[head.split(b" ")[1].decode()].append((head, body))
            time.sleep(SLOW[0])
            client.sendall(b"HTTP/1.1 200 OK\r\nContent-Length: 2\r\n\r\nok")
        except OSError:
            pass


def server():
    listener = socket.create_server(("127.0.0.1", SERVER), backlog=512)
    while True:
        client, _ = listener.accept()
        threading.Thread(target=serve_one, args=(client,), daemon=True).start()


CONFIG = """listen w
    {mode}
    bind 127.0.0.1:{port}
    timeout client 10s
    timeout server 10s
    timeout connect 5s
    timeout queue 30s
    server a 127.0.0.1:{server} maxconn {limit}
"""


class Proxy:
    def __init__(self, *words, limit=8):
        path = os.path.join(FOLDER, "forwarded.cfg")
        with open(path, "w") as file:
            file.write(CONFIG.format(mode="mode http", port=PROXY, server=SERVER, limit=limit))
        self.process = subprocess.Popen([PROGRAM, "run", path, *words], stdout=subprocess.DEVNULL, stderr=subprocess.PIPE)
        self.process.stderr.readline()
        SEEN.clear()

    def __enter__(self):
        return self

    def __exit__(self, *_):
        self.process.kill()
        self.process.wait()
        self.process.stderr.close()


class Haproxy:
    def __init__(self):
        path = os.path.join(FOLDER, "forwarded.haproxy.cfg")
        with open(path, "w") as file:
            file.write(CONFIG.format(mode="mode http\n    option forwardfor", port=OTHER, server=SERVER, limit=8))
        self.process = subprocess.Popen(["haproxy", "-db", "-q", "-f", path], stderr=subprocess.DEVNULL)
        for _ in range(200):
            try:
                socket.create_connection(("127.0.0.1", OTHER)).close()
                return
            except OSError:
                time.sleep(0.01)

    def __enter__(self):
        return self

    def __exit__(self, *_):
        self.process.kill()
        self.process.wait()


def connect(port, address="127.0.0.1"):
    client = socket.create_connection(("127.0.0.1", port), timeout=30, source_address=(address, 0))
    client.setsockopt(socket.IPPROTO_TCP, socket.TCP_NODELAY, 1)
    return client


def ask(request, port=PROXY, address="127.0.0.1"):
    """The status, once the connection ended."""
    data = b""
    with connect(port, address) as client:
        client.sendall(request)
        try:
            while True:
                got = client.recv(65536)
                if not got:
                    break
                data += got
        except OSError:
            pass
    return data[9:12].decode()


def get(target, *fields, version="1.1"):
    lines = "".join(f"{field}\r\n" for field in fields)
    return f"GET {target} HTTP/{version}\r\nHost: h\r\n{lines}\r\n".encode()


def values(head):
    """Those of the field, in order."""
    lines = [line.split(b":", 1) for line in head.split(b"\r\n")[1:]]
    return [value.strip().decode() for name, value in lines if name.lower() == b"x-forwarded-for"]


def only(target):
    with LOCK:
        assert len(SEEN[target]) == 1, (target, SEEN[target])
        return SEEN[target][0]


def same(got, wanted):
    assert got == wanted, (got, wanted)


@case
def without_the_word_nothing_is_added():
    with Proxy():
        same(ask(get("/a")), "200")
        same(values(only("/a")[0]), [])
        same(ask(get("/b", "X-Forwarded-For: 10.0.0.1")), "200")
        same(values(only("/b")[0]), ["10.0.0.1"])


@case
def a_request_names_its_client():
    with Proxy("--forwarded-for"):
        for address in ("127.0.0.1", "127.0.0.7", "127.9.200.255"):
            same(ask(get("/" + address), address=address), "200")
            head = only("/" + address)[0]
            same(values(head), [address])
            same(head.count(b"X-Forwarded-For: "), 1)


# What a client says of itself, which stays.
OWN = (
    ("/none",),
    ("/one", "X-Forwarded-For: 10.0.0.1"),
    ("/list", "x-forwarded-for: 10.0.0.1, 10.0.0.2"),
    ("/two", "X-FORWARDED-FOR: 10.0.0.1", "Accept: x", "X-Forwarded-For: 2001:db8::7"),
    ("/empty", "X-Forwarded-For:"),
    ("/odd", "X-Forwarded-For: unknown, \"_a\" ;"),
    ("/blanks", "X-Forwarded-For:  \t 10.0.0.1 \t "),
)


@case
def its_own_fields_stay_in_front():
    with Proxy("--forwarded-for"):
        for target, *fields in OWN:
            same(ask(get(target, *fields), address="127.0.0.9"), "200")
            named = [field.split(":", 1)[1].strip() for field in fields if field.lower().startswith("x-f")]
            same(values(only(target)[0]), named + ["127.0.0.9"])


@case
def the_fields_are_those_of_haproxy():
    if not shutil.which("haproxy"):
        return "haproxy isn't there"
    for port, proxy in ((PROXY, Proxy("--forwarded-for")), (OTHER, Haproxy())):
        with proxy:
            for target, *fields in OWN:
                same(ask(get(target, *fields), port=port, address="127.0.0.9"), "200")
    # Where the proxy began first and HAProxy second, each target came twice.
    for target, *_ in OWN:
        first, second = SEEN[target]
        same(values(first[0]), values(second[0]))


@case
def it_stands_behind_the_other_fields_and_before_the_framing():
    with Proxy("--forwarded-for"):
        same(ask(b"POST /p HTTP/1.1\r\nContent-Length: 3\r\nHost: h\r\nAccept: x\r\n\r\nabc"), "200")
        same(only("/p"), (b"POST /p HTTP/1.1\r\nHost: h\r\nAccept: x\r\nX-Forwarded-For: 127.0.0.1\r\nContent-Length: 3\r\nConnection: close", b"abc"))
        same(ask(b"POST /c HTTP/1.1\r\nTransfer-Encoding: chunked\r\nHost: h\r\n\r\n3\r\nabc\r\n0\r\n\r\n"), "200")
        head, body = only("/c")
        assert b"\r\nX-Forwarded-For: 127.0.0.1\r\nTransfer-Encoding: chunked\r\n" in head + b"\r\n", head
        same(body, b"3\r\nabc\r\n0\r\n\r\n")
        same(ask(b"GET /old HTTP/1.0\r\n\r\n"), "200")
        same(only("/old")[0], b"GET /old HTTP/1.1\r\nHost:\r\nX-Forwarded-For: 127.0.0.1\r\nConnection: close")


@case
def a_client_cannot_have_it_left_out():
    with Proxy("--forwarded-for"):
        same(ask(get("/a", "Connection: X-Forwarded-For", "X-Forwarded-For: 10.0.0.1")), "200")
        same(values(only("/a")[0]), ["127.0.0.1"])


@case
def each_request_of_a_connection_has_it():
    with Proxy("--forwarded-for", "--keep-alive"):
        request = get("/1") + get("/2", "X-Forwarded-For: 10.0.0.1") + get("/3", "Connection: close")
        with connect(PROXY, "127.0.0.8") as client:
            client.sendall(request)
            data = b""
            while True:
                got = client.recv(65536)
                if not got:
                    break
                data += got
        same(data.count(b"200 OK"), 3)
        same([values(only(f"/{n}")[0]) for n in (1, 2, 3)], [["127.0.0.8"], ["10.0.0.1", "127.0.0.8"], ["127.0.0.8"]])


@case
def those_who_waited_name_their_own_clients():
    SLOW[0] = 0.005
    try:
        with Proxy("--forwarded-for", "--places", "8", limit=2):
            told = collections.Counter()

            def one(address):
                told[ask(get("/" + address), address=address)] += 1

            addresses = [f"127.0.{n // 100}.{n % 100 + 10}" for n in range(200)]
            threads = [threading.Thread(target=one, args=(address,)) for address in addresses]
            for thread in threads:
                thread.start()
            for thread in threads:
                thread.join()
            same(dict(told), {"200": 200})
            for address in addresses:
                same(values(only("/" + address)[0]), [address])
    finally:
        SLOW[0] = 0.0


@case
def no_request_of_a_client_that_has_gone_is_without_it():
    SLOW[0] = 0.02
    try:
        with Proxy("--forwarded-for", limit=2):
            for number in range(100):
                client = connect(PROXY, "127.0.0.6")
                client.sendall(get(f"/{number}", "X-Forwarded-For: 10.0.0.1"))
                if number % 3 == 0:
                    client.setsockopt(socket.SOL_SOCKET, socket.SO_LINGER, struct.pack("ii", 1, 0))
                elif number % 3 == 1:
                    client.shutdown(socket.SHUT_WR)
                client.close()
            same(ask(get("/last")), "200")
            time.sleep(1)
            with LOCK:
                heads = [head for target, came in SEEN.items() if target != "/last" for head, _ in came]
            for head in heads:
                same(values(head), ["10.0.0.1", "127.0.0.6"])
            return f"{len(heads)} of 100 came to the server"
    finally:
        SLOW[0] = 0.0


@case
def a_head_of_the_greatest_size_has_room_for_it():
    with Proxy("--forwarded-for"):
        bare = len(get("/big", "X: "))
        for size in range(16384 - 80, 16385, 20):
            SEEN.clear()
            same(ask(get("/big", "X: " + "v" * (size - bare))), "200")
            same(values(only("/big")[0]), ["127.0.0.1"])


def main():
    threading.Thread(target=server, daemon=True).start()
    failed = 0
    for function in CASES:
        name = function.__name__.replace("_", " ")
        SEEN.clear()
        try:
            note = function()
            print(f"ok {name}" + (f" ({note})" if note else ""), flush=True)
        except Exception as error:
            failed += 1
            print(f"FAILED {name}: {type(error).__name__}: {error}", flush=True)
    print(f"{len(CASES) - failed} of {len(CASES)}")
    sys.exit(1 if failed else 0)


main()
