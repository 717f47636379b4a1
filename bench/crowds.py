#!/usr/bin/env python3
"""crowds.py PROGRAM FOLDER: what `dueproxy run` does with crowds: bursts, clients beyond the places, streams and
readers that don't read beside others, a server that is dead; bench/faults.sh calls it. Where `haproxy` is on the
path, each is tried with it too: how long others take, and how many answers come in a second, is judged by that.
Prints a line for each, and exits with 1 where one failed. The variable ONLY is a pattern for names."""
import asyncio
import hashlib
import multiprocessing
import os
import re
import resource
import selectors
import shutil
import socket
import subprocess
import sys
import time

PROGRAM, FOLDER = sys.argv[1:3]
PROXY, SERVER, NOBODY = 18190, 18191, 18192
GET = b"GET / HTTP/1.1\r\nHost: h\r\n\r\n"
LARGE = 2 << 20
FILES = 20_000
failed = False


def tried(name, ok, told):
    global failed
    failed = failed or not ok
    print(("ok      " if ok else "FAILED  ") + f"{name}: {told}", flush=True)


# The server, a process of its own. It answers by the path, after so long, and counts how many requests it has at once.


async def answer(reader, writer, pause, now, most):
    try:
        head = await reader.readuntil(b"\r\n\r\n")
        path = head.split(b" ")[1]
        length = re.search(rb"(?i)\r\ncontent-length: *(\d+)", head)
        body = await reader.readexactly(int(length.group(1))) if length else b""
        now.value += 1
        most.value = max(most.value, now.value)
        try:
            if path == b"/stream":
                writer.write(b"HTTP/1.1 200 OK\r\nTransfer-Encoding: chunked\r\n\r\n")
                while not reader.at_eof():
                    writer.write(b"14\r\ndata: 01234567890123\r\n")
                    await writer.drain()
                    await asyncio.sleep(0.05)
                return
            await asyncio.sleep(pause)
            body = bytes(LARGE) if path == b"/large" else bytes(100_000) if path == b"/100k" else hashlib.sha256(body).hexdigest().encode()
        finally:
            now.value -= 1
        writer.write(b"HTTP/1.1 200 OK\r\nContent-Length: %d\r\n\r\n" % len(body))
        writer.write(body)
        await writer.drain()
    except (OSError, asyncio.IncompleteReadError):
        pass
    finally:
        writer.close()


def serve(pause, now, most):
    async def forever():
        server = await asyncio.start_server(lambda reader, writer: answer(reader, writer, pause, now, most), "127.0.0.1", SERVER, backlog=4096)
        await server.serve_forever()

    asyncio.run(forever())


class Server:
    def __init__(self, pause=0.0):
        self.now, self.most = multiprocessing.Value("i", 0, lock=False), multiprocessing.Value("i", 0, lock=False)
        self.process = multiprocessing.Process(target=serve, args=[pause, self.now, self.most], daemon=True)

    def __enter__(self):
        self.process.start()
        reached(SERVER)
        return self

    def __exit__(self, *_):
        self.process.kill()
        self.process.join()


def reached(port):
    for _ in range(300):
        try:
            return socket.create_connection(("127.0.0.1", port)).close()
        except OSError:
            time.sleep(0.02)
    sys.exit(f"nobody listens at {port}")


class Proxy:
    """Before the server, with so many slots. `words` are Dueproxy's alone."""

    def __init__(self, haproxy, limit, settings="", words=()):
        name = f"{FOLDER}/crowds.cfg"
        front = "global\n maxconn 6000\ndefaults\n mode http\n option httpclose\n" if haproxy else ""
        with open(name, "w") as file:
            file.write(f"{front}listen crowds\n bind 127.0.0.1:{PROXY}\n timeout client 30s\n timeout server 30s\n timeout connect 1s\n timeout queue 60s\n"
                       f"{settings} server it 127.0.0.1:{SERVER} maxconn {limit}\n")
        command = ["haproxy", "-db", "-q", "-f", name] if haproxy else [PROGRAM, "run", name, *words]
        self.process = subprocess.Popen(command, stdout=subprocess.DEVNULL, stderr=subprocess.DEVNULL)
        reached(PROXY)

    def __enter__(self):
        return self

    def __exit__(self, *_):
        self.process.kill()
        self.process.wait()


# Clients.


async def ask(says, answers):
    try:
        reader, writer = await asyncio.open_connection("127.0.0.1", PROXY)
        writer.write(says)
        got = await reader.read()
        writer.close()
        key = got[9:12].decode() if got else "nothing"
    except OSError as error:
        key = type(error).__name__
    answers[key] = answers.get(key, 0) + 1


def burst(count, says=GET, seconds=60):
    """How many of so many clients at once got what, and after how long all had."""
    answers, start = {}, time.time()

    async def all_of_them():
        tasks = [asyncio.create_task(ask(says, answers)) for _ in range(count)]
        _, left = await asyncio.wait(tasks, timeout=seconds)
        for task in left:
            task.cancel()
        if left:
            answers["never"] = len(left)

    asyncio.run(all_of_them())
    return answers, time.time() - start


def rate(count, seconds):
    """How many answers a second so many clients get that ask again and again, and which."""
    answers = {}

    async def again(until):
        while time.time() < until:
            await ask(GET, answers)

    async def all_of_them():
        until = time.time() + seconds
        tasks = [asyncio.create_task(again(until)) for _ in range(count)]
        await asyncio.sleep(seconds)
        done = answers.get("200", 0)
        _, left = await asyncio.wait(tasks, timeout=30)
        for task in left:
            task.cancel()
        if left:
            answers["never"] = len(left)
        return done / seconds

    return asyncio.run(all_of_them()), answers


def connect(says, receive=None):
    client = socket.socket()
    if receive:
        client.setsockopt(socket.SOL_SOCKET, socket.SO_RCVBUF, receive)
    client.settimeout(30)
    client.connect(("127.0.0.1", PROXY))
    client.sendall(says)
    return client


def one(says):
    """What a client gets, and after how long."""
    start, got = time.time(), b""
    with connect(says) as client:
        while piece := client.recv(1 << 18):
            got += piece
    return got, time.time() - start


POST = b"POST / HTTP/1.1\r\nHost: h\r\nContent-Length: 10000\r\n\r\n" + b"x" * 10_000
DIGEST = hashlib.sha256(b"x" * 10_000).hexdigest().encode()


def beside(rounds=20):
    """The longest time of POSTs of 10 kB and GETs of 100 kB, and how many of them were wrong."""
    slowest, wrong = 0, 0
    for _ in range(rounds):
        got, took = one(POST)
        slowest, wrong = max(slowest, took), wrong + (not got.endswith(DIGEST))
        got, took = one(GET.replace(b"/ ", b"/100k "))
        slowest, wrong = max(slowest, took), wrong + (not got.endswith(bytes(100_000)))
    return slowest, wrong


# Each is tried with HAProxy where it is there, and then with Dueproxy.


def both(does):
    return (does(True) if shutil.which("haproxy") else None), does(False)


def as_told(seconds):
    return "HAProxy isn't there" if seconds is None else f"HAProxy {seconds:.2f} s"


def bursts():
    for places in ("1", "16", None):
        def does(haproxy):
            with Server(0.002) as server, Proxy(haproxy, 4, words=["--places", places] if places else []):
                answers, took = burst(1200)
                return answers, took, server.most.value

        theirs, (answers, took, most) = both(does)
        name = f"a burst of 1,200 clients at limit 4, places {places or 'as many as there are'}: each is answered"
        tried(name, answers == {"200": 1200} and most <= 4,
              f"{answers} in {took:.2f} s, {most} at once, " + as_told(theirs and theirs[1]) + (f" {theirs[0]}" if theirs else ""))


def beyond():
    def does(haproxy):
        with Server(0.005) as server, Proxy(haproxy, 4):
            found, answers = rate(1800, 4)
            return found, answers, server.most.value

    theirs, (found, answers, most) = both(does)
    enough = theirs is None or found >= 0.8 * theirs[0]
    tried("1,800 clients at limit 4 that ask again and again: no other answer, and at least 0.8 of HAProxy's in a second",
          set(answers) == {"200"} and enough and most <= 4,
          f"{found:.0f} a second {answers}, {most} at once, " + (f"HAProxy {theirs[0]:.0f} {theirs[1]}" if theirs else "HAProxy isn't there"))


def streams():
    def does(haproxy):
        with Server(), Proxy(haproxy, 300):
            clients = [connect(GET.replace(b"/ ", b"/stream ")) for _ in range(256)]
            time.sleep(0.5)
            slowest, wrong = beside()
            gone = sum(not is_open(client) for client in clients)
            for client in clients:
                client.close()
            return slowest, wrong, gone

    theirs, (slowest, wrong, gone) = both(does)
    tried("POSTs of 10 kB and GETs of 100 kB beside 256 event streams: none is wrong, and none takes 3 times HAProxy's longest and 0.3 s",
          wrong == 0 and gone == 0 and slowest <= max(0.3, 3 * (theirs[0] if theirs else 0)),
          f"{slowest:.2f} s at most, {wrong} wrong, {gone} streams ended, " + as_told(theirs and theirs[0]))


def is_open(client):
    """Whether there is no end behind what came."""
    client.setblocking(False)
    try:
        while client.recv(1 << 18):
            pass
        return False
    except BlockingIOError:
        return True


def read_to_their_ends(clients):
    """How many bytes each got."""
    got = dict.fromkeys(clients, 0)
    with selectors.DefaultSelector() as selector:
        for client in clients:
            client.setblocking(False)
            selector.register(client, selectors.EVENT_READ)
        until = time.time() + 60
        while selector.get_map() and time.time() < until:
            for key, _ in selector.select(1):
                try:
                    piece = key.fileobj.recv(1 << 18)
                except BlockingIOError:
                    continue
                except OSError:
                    piece = b""
                got[key.fileobj] += len(piece)
                if not piece:
                    selector.unregister(key.fileobj)
    return list(got.values())


def readers():
    def does(haproxy):
        with Server(), Proxy(haproxy, 300):
            clients = [connect(GET.replace(b"/ ", b"/large "), 65536) for _ in range(256)]
            time.sleep(0.5)
            slowest, wrong = beside()
            whole = sum(count > LARGE for count in read_to_their_ends(clients))
            for client in clients:
                client.close()
            return slowest, wrong, whole

    theirs, (slowest, wrong, whole) = both(does)
    tried("the same beside 256 readers that don't read 2 MiB, who get all of it when they do",
          wrong == 0 and whole == 256 and slowest <= max(0.3, 3 * (theirs[0] if theirs else 0)),
          f"{slowest:.2f} s at most, {wrong} wrong, {whole} whole, " + as_told(theirs and theirs[0]))


def dead():
    settings = f" retries 2\n use-server dead if {{ path_beg /dead }}\n server dead 127.0.0.1:{NOBODY} maxconn 1000 weight 0\n"

    def does(haproxy):
        with Server(), Proxy(haproxy, 4, settings):
            with multiprocessing.Pool(1) as pool:
                start = time.time()
                dead = pool.apply_async(burst, [800, GET.replace(b"/ ", b"/dead ")])
                time.sleep(0.3)
                slowest, wrong = 0, 0
                while not dead.ready() and time.time() < start + 30:
                    took, bad = beside(1)
                    slowest, wrong = max(slowest, took), wrong + bad
                answers, took = dead.get(timeout=60)
                return slowest, wrong, answers, took

    theirs, (slowest, wrong, answers, took) = both(does)
    tried("800 requests to a server that is dead: each is told 503, and others beside them are answered",
          wrong == 0 and answers == {"503": 800} and slowest <= max(0.3, 3 * (theirs[0] if theirs else 0)),
          f"{answers} in {took:.2f} s, others {slowest:.2f} s at most, {wrong} wrong, " + as_told(theirs and theirs[0])
          + (f", {theirs[2]} in {theirs[3]:.2f} s" if theirs else ""))


multiprocessing.set_start_method("fork")
files = min(FILES, resource.getrlimit(resource.RLIMIT_NOFILE)[1])
resource.setrlimit(resource.RLIMIT_NOFILE, (files, files))
for crowd in (bursts, beyond, streams, readers, dead):
    if re.search(os.environ.get("ONLY", ""), crowd.__name__):
        crowd()
sys.exit(1 if failed else 0)
