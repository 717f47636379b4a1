#!/usr/bin/env python3
"""keep_alive.py PROGRAM FOLDER: clients that stay for further requests (`run --keep-alive`).

Starts PROGRAM before a server of this script, and tries it on real sockets. Prints a line a case and
`N of M`, and exits with 1 where one failed."""
import os
import random
import socket
import subprocess
import sys
import threading
import time

PROGRAM, FOLDER = sys.argv[1:3]
PROXY, SERVER = 18480, 18481
os.makedirs(FOLDER, exist_ok=True)
CONTROL = os.path.join(FOLDER, "keep_alive.sock")
CASES = []


def case(function):
    CASES.append(function)
    return function


def serve_one(client):
    """Answers a request with its target, in the way that the target asks for."""
    with client:
        data = b""
        while b"\r\n\r\n" not in data:
            got = client.recv(65536)
            if not got:
                return
            data += got
        head, rest = data.split(b"\r\n\r\n", 1)
        target = head.split(b" ")[1]
        lower = head.lower()
        if b"content-length:" in lower:
            length = int(lower.split(b"content-length:")[1].split(b"\r\n")[0])
            while len(rest) < length:
                rest += client.recv(65536)
        elif b"transfer-encoding:" in lower:
            while not rest.endswith(b"0\r\n\r\n"):
                rest += client.recv(65536)
        if target.startswith(b"/chunked"):
            client.sendall(b"HTTP/1.1 200 OK\r\nTransfer-Encoding: chunked\r\n\r\n%x\r\n%s\r\n0\r\n\r\n" % (len(target), target))
        elif target.startswith(b"/end"):
            client.sendall(b"HTTP/1.1 200 OK\r\n\r\n" + target)
        elif target.startswith(b"/cut"):
            client.sendall(b"HTTP/1.1 200 OK\r\nContent-Length: 100\r\n\r\n" + target)
        else:
            client.sendall(b"HTTP/1.1 200 OK\r\nContent-Length: %d\r\n\r\n%s" % (len(target), target))


def server():
    listener = socket.create_server(("127.0.0.1", SERVER), backlog=512)
    while True:
        client, _ = listener.accept()
        threading.Thread(target=serve_one, args=(client,), daemon=True).start()


class Proxy:
    def __init__(self, *words):
        path = os.path.join(FOLDER, "keep_alive.cfg")
        with open(path, "w") as file:
            file.write(f"listen w\n bind 127.0.0.1:{PROXY}\n timeout client 5s\n timeout server 5s\n timeout connect 5s\n"
                       f" server a 127.0.0.1:{SERVER} maxconn 8\n")
        self.process = subprocess.Popen([PROGRAM, "run", path, "--control", CONTROL, *words],
                                        stdout=subprocess.DEVNULL, stderr=subprocess.PIPE)
        self.process.stderr.readline()

    def __enter__(self):
        return self

    def __exit__(self, *_):
        self.process.kill()
        self.process.wait()
        self.process.stderr.close()


def connect():
    client = socket.create_connection(("127.0.0.1", PROXY))
    client.settimeout(5)
    client.setsockopt(socket.IPPROTO_TCP, socket.TCP_NODELAY, 1)
    return client


class Reader:
    """Reads answers of a connection, one after the other."""

    def __init__(self, client):
        self.client, self.data = client, b""

    def more(self):
        got = self.client.recv(65536)
        if not got:
            raise EOFError(self.data)
        self.data += got

    def until(self, mark):
        while mark not in self.data:
            self.more()
        front, self.data = self.data.split(mark, 1)
        return front

    def exactly(self, count):
        while len(self.data) < count:
            self.more()
        front, self.data = self.data[:count], self.data[count:]
        return front

    def answer(self):
        head = self.until(b"\r\n\r\n")
        lower = head.lower()
        if b"transfer-encoding: chunked" in lower:
            body = b""
            while True:
                size = int(self.until(b"\r\n"), 16)
                body += self.exactly(size)
                self.exactly(2)
                if size == 0:
                    return head, body
        if b"content-length:" in lower:
            return head, self.exactly(int(lower.split(b"content-length:")[1].split(b"\r\n")[0]))
        body = self.data
        while True:
            got = self.client.recv(65536)
            if not got:
                return head, body
            body += got

    def ends(self):
        return self.data == b"" and self.client.recv(1) == b""


def get(target, extra=b"", version=b"1.1"):
    return b"GET %s HTTP/%s\r\nHost: h\r\n%s\r\n" % (target, version, extra)


@case
def one_after_the_other():
    with Proxy("--keep-alive"), connect() as client:
        reader = Reader(client)
        for number in range(10):
            client.sendall(get(b"/%d" % number))
            head, body = reader.answer()
            assert body == b"/%d" % number and b"close" not in head.lower(), (head, body)


@case
def three_in_one_segment_with_every_cut():
    text = get(b"/1") + b"POST /chunked2 HTTP/1.1\r\nHost: h\r\nTransfer-Encoding: chunked\r\n\r\n2\r\nab\r\n0\r\n\r\n" + get(b"/3")
    with Proxy("--keep-alive"):
        for cut in range(0, len(text), 3):
            with connect() as client:
                client.sendall(text[:cut])
                time.sleep(0.001)
                client.sendall(text[cut:])
                reader = Reader(client)
                bodies = [reader.answer()[1] for _ in range(3)]
                assert bodies == [b"/1", b"/chunked2", b"/3"], (cut, bodies)


@case
def old_clients_stay_only_where_they_ask():
    with Proxy("--keep-alive"):
        with connect() as client:
            client.sendall(get(b"/1", version=b"1.0"))
            reader = Reader(client)
            assert reader.answer()[1] == b"/1" and reader.ends()
        with connect() as client:
            reader = Reader(client)
            for number in (b"/1", b"/2"):
                client.sendall(get(number, b"Connection: keep-alive\r\n", b"1.0"))
                head, body = reader.answer()
                assert body == number and b"connection: keep-alive" in head.lower(), head


@case
def who_says_close_is_closed():
    with Proxy("--keep-alive"), connect() as client:
        client.sendall(get(b"/1", b"Connection: close\r\n") + get(b"/2"))
        reader = Reader(client)
        head, body = reader.answer()
        assert body == b"/1" and b"connection: close" in head.lower() and reader.ends()


@case
def who_asks_for_nothing_is_closed():
    with Proxy("--keep-alive", "--keep-alive-timeout", "300"), connect() as client:
        client.sendall(get(b"/1"))
        reader = Reader(client)
        reader.answer()
        since = time.time()
        assert reader.ends()
        assert 0.25 < time.time() - since < 1.5, time.time() - since


@case
def a_refusal_ends_it():
    with Proxy("--keep-alive"), connect() as client:
        client.sendall(get(b"/1") + b"GET\r\n\r\n" + get(b"/2"))
        reader = Reader(client)
        assert reader.answer()[1] == b"/1"
        head, _ = reader.answer()
        assert b" 400 " in head and reader.ends(), head


@case
def an_answer_to_the_end_ends_it():
    with Proxy("--keep-alive"), connect() as client:
        client.sendall(get(b"/end", version=b"1.0"))
        reader = Reader(client)
        assert reader.answer()[1] == b"/end"


@case
def an_answer_that_breaks_off_ends_it():
    with Proxy("--keep-alive"), connect() as client:
        client.sendall(get(b"/cut") + get(b"/2"))
        data = b""
        while True:
            try:
                got = client.recv(65536)
            except ConnectionResetError:
                break
            if not got:
                break
            data += got
        assert data.endswith(b"/cut"), data


@case
def without_the_word_each_is_the_last():
    with Proxy(), connect() as client:
        client.sendall(get(b"/1") + get(b"/2"))
        reader = Reader(client)
        head, body = reader.answer()
        assert body == b"/1" and b"connection: close" in head.lower() and reader.ends()


@case
def a_stop_closes_who_asks_for_nothing():
    with Proxy("--keep-alive") as proxy, connect() as client:
        client.sendall(get(b"/1"))
        reader = Reader(client)
        reader.answer()
        stopped = subprocess.run([PROGRAM, "ctl", CONTROL, "stop"], stdout=subprocess.DEVNULL, timeout=5)
        assert stopped.returncode == 0 and reader.ends()
        assert proxy.process.wait(5) == 0


@case
def each_gets_its_own_answers():
    """Clients at random: each request has a number that its answer names."""
    failures = []

    def play(seed):
        pick = random.Random(seed)
        try:
            with connect() as client:
                reader = Reader(client)
                for turn in range(6):
                    targets = [b"/%s%d-%d-%d" % (pick.choice([b"", b"chunked"]), seed, turn, k) for k in range(pick.randint(1, 4))]
                    text = b"".join(get(target) for target in targets)
                    cut = pick.randrange(len(text))
                    client.sendall(text[:cut])
                    client.sendall(text[cut:])
                    for target in targets:
                        body = reader.answer()[1]
                        if body != target:
                            failures.append((target, body))
                            return
        except (OSError, EOFError, ValueError) as error:
            failures.append((seed, repr(error)))

    with Proxy("--keep-alive", "--places", "4"):
        threads = [threading.Thread(target=play, args=(seed,)) for seed in range(200)]
        for thread in threads:
            thread.start()
        for thread in threads:
            thread.join()
    assert not failures, failures[:3]


def main():
    threading.Thread(target=server, daemon=True).start()
    good = 0
    for function in CASES:
        try:
            function()
            good += 1
            print("ok     ", function.__name__, flush=True)
        except Exception as error:
            print("FAILED ", function.__name__, repr(error)[:200], flush=True)
    print(f"{good} of {len(CASES)}")
    sys.exit(good != len(CASES))


main()
