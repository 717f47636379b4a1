#!/usr/bin/env python3
"""faults.py PROGRAM FOLDER: what `dueproxy run` does with peers that are silent, go or aren't there, and where it can't accept; bench/faults.sh calls it."""
import resource
import socket
import struct
import subprocess
import sys
import threading
import time

PROGRAM, FOLDER = sys.argv[1:]
PROXY, SERVER = 18180, 18181
REQUEST = b"GET / HTTP/1.1\r\nHost: h\r\n\r\n"
BAD_REQUEST = b"HTTP/1.1 400 Bad Request\r\n"
BAD_GATEWAY = b"HTTP/1.1 502 Bad Gateway\r\n"
UNAVAILABLE = b"HTTP/1.1 503 Service Unavailable\r\n"
failed = False


def tried(name, ok, told=""):
    global failed
    failed = failed or not ok
    print(("ok      " if ok else "FAILED  ") + name + ("" if ok else f": {told}"))


def configured(settings="", server="maxconn 2"):
    name = f"{FOLDER}/faults.cfg"
    with open(name, "w") as file:
        file.write(f"listen faults\n bind 127.0.0.1:{PROXY}\n{settings} server it 127.0.0.1:{SERVER} {server}\n")
    return name


class Proxy:
    """A proxy for so many clients."""

    def __init__(self, name, requests, workers=16, files=1024, places=1024):
        self.process = subprocess.Popen(
            [PROGRAM, "run", name, "--requests", str(requests), "--workers", str(workers), "--places", str(places)],
            stdout=subprocess.PIPE,
            stderr=subprocess.PIPE,
            preexec_fn=lambda: resource.setrlimit(resource.RLIMIT_NOFILE, (files, files)),
        )
        self.first = self.process.stderr.readline().decode()

    def end(self):
        try:
            out, err = self.process.communicate(timeout=30)
        except subprocess.TimeoutExpired:
            self.process.kill()
            return "it didn't end", "", ""
        return self.process.returncode, out.decode(), err.decode()


def ask(says, seconds=10):
    """What a client gets until its connection ends, and how long that took. It stays silent after what it says."""
    start = time.time()
    with socket.create_connection(("127.0.0.1", PROXY), timeout=seconds) as client:
        client.sendall(says)
        got = b""
        try:
            while piece := client.recv(65536):
                got += piece
        except socket.timeout:
            return None, seconds
        except ConnectionError:
            pass
        return got, time.time() - start


class Listening:
    """A server that does with each connection what it is told to."""

    def __init__(self, does=None):
        self.listener = socket.create_server(("127.0.0.1", SERVER), backlog=16)
        self.kept = []
        if does:
            threading.Thread(target=self.serve, args=[does], daemon=True).start()

    def serve(self, does):
        while True:
            try:
                client, _ = self.listener.accept()
            except OSError:
                return
            self.kept.append(client)
            does(client)

    def __enter__(self):
        return self

    def __exit__(self, *_):
        self.listener.shutdown(socket.SHUT_RDWR)
        self.listener.close()
        for client in self.kept:
            client.close()


def answer(client):
    client.recv(65536)
    client.sendall(b"HTTP/1.1 200 OK\r\nContent-Length: 2\r\n\r\nok")


def half(client):
    client.recv(65536)
    client.sendall(b"HTTP/1.1 200 OK\r\nContent-Length: 10\r\n\r\nhalf")


def bye(client):
    client.recv(65536)
    client.shutdown(socket.SHUT_RDWR)


def one(name, settings, does, says, expected, least, most):
    """One client. It gets what begins so, or nothing, after so long."""
    with Listening(does):
        proxy = Proxy(configured(settings), 1)
        got, took = ask(says)
        status, _, err = proxy.end()
    good = got is not None and (got.startswith(expected) if expected else got == b"")
    tried(name, good and least <= took <= most and status == 0, f"{got} after {took:.2f} s, status {status} {err}")


one("a client that says nothing is closed after `timeout client`", " timeout client 300ms\n", answer, b"", b"", 0.25, 2)
one("a client that stops within its head is a 400", " timeout client 300ms\n", answer, REQUEST[:-4], BAD_REQUEST, 0.25, 2)
one("a client that stops within its body is closed too", " timeout client 300ms\n", lambda client: client.recv(65536) and time.sleep(2), b"POST / HTTP/1.1\r\nHost: h\r\nContent-Length: 10\r\n\r\nhalf", b"", 0.25, 2)
one("a server that says nothing is a 502 after `timeout server`", " timeout server 300ms\n", lambda client: None, REQUEST, BAD_GATEWAY, 0.25, 2)
one("a server that stops within its answer cuts it off", " timeout server 300ms\n", half, REQUEST, b"HTTP/1.1 200 OK\r\n", 0.25, 2)
one("a server that goes without a byte is a 502", "", bye, REQUEST, BAD_GATEWAY, 0, 2)
one("without times a slow answer is waited for", "", lambda client: (time.sleep(1), answer(client)), REQUEST, b"HTTP/1.1 200 OK\r\n", 1, 3)

class First:
    """A server that does something else with its first client."""

    def __init__(self, does):
        self.does = [does]

    def __call__(self, client):
        (self.does.pop() if self.does else answer)(client)


def slow(client):
    client.recv(65536)
    time.sleep(0.6)
    client.sendall(b"HTTP/1.1 200 OK\r\nContent-Length: 2\r\n\r\nok")


def by_and_by(client):
    client.recv(65536)
    try:
        client.sendall(b"HTTP/1.1 200 OK\r\nContent-Length: 200000\r\n\r\n")
        for _ in range(20):
            client.sendall(10000 * b"a")
            time.sleep(0.02)
    except OSError:
        pass


def leave(says, wait, resets):
    """A client that goes after so long, by a reset or by its end."""
    client = socket.create_connection(("127.0.0.1", PROXY))
    client.sendall(says)
    time.sleep(wait)
    if resets:
        client.setsockopt(socket.SOL_SOCKET, socket.SO_LINGER, struct.pack("ii", 1, 0))
    client.close()


def then_another(name, settings, does, before, places, asked):
    """What a peer does wrong, and then a request that is answered: its place is free. The server was asked so often."""
    with Listening(does) as server:
        proxy = Proxy(configured(settings, "maxconn 1"), 3 if places == 2 else 2, places=places)
        told = before()
        got, _ = ask(REQUEST)
        status, _, err = proxy.end()
        count = len(server.kept)
    good = told is None and (got or b"").startswith(b"HTTP/1.1 200 OK") and (status, count) == (0, asked)
    tried(name, good, f"{told} {got} status {status} {err} asked {count}")


def told(says, expected):
    """A client that is told this. None: it was."""
    got, _ = ask(says)
    return None if (got or b"").startswith(expected) else got


def gone_while_it_waits(resets):
    """The slot is taken, a second client waits, and goes."""
    first = threading.Thread(target=ask, args=[REQUEST])
    first.start()
    time.sleep(0.15)
    leave(REQUEST, 0.15, resets)
    time.sleep(0.1)


def too_long():
    """The slot is taken, and a second client waits for longer than it may."""
    first = threading.Thread(target=ask, args=[REQUEST])
    first.start()
    time.sleep(0.1)
    refused = told(REQUEST, UNAVAILABLE)
    first.join()
    return refused


BAD_CHUNK = b"POST / HTTP/1.1\r\nHost: h\r\nTransfer-Encoding: chunked\r\n\r\nzz\r\n"
then_another("a head that is none is a 400", "", answer, lambda: told(b"HELLO\r\n\r\n", BAD_REQUEST), 1, 1)
then_another("a chunk that is none is a 400", "", answer, lambda: told(BAD_CHUNK, BAD_REQUEST), 1, 1)
then_another("an answer whose head is none is a 502", "", First(lambda client: client.sendall(b"HELLO\r\n\r\n")), lambda: told(REQUEST, BAD_GATEWAY), 1, 2)
then_another("an answer that frames its body badly is a 502", "", First(lambda client: client.sendall(b"HTTP/1.1 200 OK\r\nContent-Length: ten\r\n\r\n")), lambda: told(REQUEST, BAD_GATEWAY), 1, 2)
then_another("a client that waits longer than `timeout queue` is a 503", " timeout queue 300ms\n", slow, too_long, 2, 2)
then_another("a client that is reset after a part of its answer", "", First(by_and_by), lambda: leave(REQUEST, 0.1, True) or time.sleep(0.6), 1, 2)
then_another("a client that is reset while it waits", "", slow, lambda: gone_while_it_waits(True), 2, 2)
then_another("a client that ends while it waits, with `option abortonclose`", " option abortonclose\n", slow, lambda: gone_while_it_waits(False), 2, 2)

proxy = Proxy(configured(" retries 2\n timeout connect 200ms\n"), 1)
got, took = ask(REQUEST)
status, out, err = proxy.end()
tried("no server: two retries 200 ms apart, then a 503", (got or b"").startswith(UNAVAILABLE) and 0.4 <= took <= 2 and status == 0, f"{got} after {took:.2f} s, status {status} {err}")

status, out, err = Proxy(configured(" keyword\n"), 1).end()
tried("a faulty configuration", (status, out) == (3, "config line 3: keyword\n"), f"status {status} {out} {err}")
proxy = Proxy(f"{FOLDER}/none.cfg", 1)
status, out, err = proxy.end()
tried("a file that isn't there", (status, proxy.first) == (1, "read fault\n"), f"status {status} {proxy.first + err}")
with socket.create_server(("127.0.0.1", PROXY)):
    proxy = Proxy(configured(), 1)
    status, out, err = proxy.end()
tried("an address that is taken", (status, proxy.first) == (1, "read fault\n"), f"status {status} {proxy.first + err}")

# Of 40 files the proxy has most for itself: the silent clients are accepted a few at a time, and each is closed before the next can be.
with Listening(answer):
    proxy = Proxy(configured(" timeout client 200ms\n", "maxconn 1"), 31, 64, 40)
    silent = [socket.create_connection(("127.0.0.1", PROXY)) for _ in range(30)]
    got, took = ask(REQUEST)
    status, out, err = proxy.end()
    for client in silent:
        client.close()
tried("more clients than files: who waits at the listener is answered once there are some", (got or b"").startswith(b"HTTP/1.1 200 OK") and status == 0, f"{got} after {took:.2f} s, status {status} {err}")

sys.exit(1 if failed else 0)
