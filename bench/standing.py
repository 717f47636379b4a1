#!/usr/bin/env python3
"""standing.py PROGRAM FOLDER: one `dueproxy run` that stands while its peers break; bench/faults.sh calls it.

After each case an honest request is answered within a second, no server had more requests at once than its limit, and the proxy's files and threads
are as many as before, and its memory not much more."""
import os
import resource
import select
import socket
import struct
import subprocess
import sys
import threading
import time

PROGRAM, FOLDER = sys.argv[1:]
PROXY, SERVER, OTHER = 18180, 18181, 18182
LIMIT, OTHERS_LIMIT, PLACES = 4, 2, 256
LOAD_SECONDS = int(os.environ.get("LOAD_SECONDS", "60"))
HONEST = b"GET /ok HTTP/1.1\r\nHost: h\r\n\r\n"
OK = b"HTTP/1.1 200 OK\r\n"
cases, failures = 0, 0

CONFIG = f"""listen standing
    bind 127.0.0.1:{PROXY}
    timeout client 2s
    timeout server 2s
    timeout connect 100ms
    timeout queue 20s
    retries 1
    option abortonclose
    acl other path_beg /other
    acl dead path_beg /dead
    use-server other if other
    use-server dead if dead
    server it 127.0.0.1:{SERVER} maxconn {LIMIT}
    server other 127.0.0.1:{OTHER} maxconn {OTHERS_LIMIT} weight 0 check inter 100ms
    server dead 127.0.0.1:1 maxconn 1 weight 0
"""


class Server:
    """Does what the path of a request says, and knows the greatest number of requests that it had at once. One whose connection was closed by the other
    end counts no more."""

    def __init__(self, port):
        self.port, self.open, self.most, self.served = port, set(), 0, 0
        self.guard = threading.Lock()
        self.up()

    def up(self):
        self.listener = socket.create_server(("127.0.0.1", self.port), backlog=1024, reuse_port=False)
        threading.Thread(target=self.accept, args=[self.listener], daemon=True).start()

    def down(self):
        self.listener.shutdown(socket.SHUT_RDWR)
        self.listener.close()

    def accept(self, listener):
        while True:
            try:
                client, _ = listener.accept()
            except OSError:
                if listener.fileno() < 0:
                    return
                continue
            threading.Thread(target=self.serve, args=[client], daemon=True).start()

    def serve(self, client):
        try:
            head = client.recv(65536)
            if head:
                with self.guard:
                    self.open = {it for it in self.open if not has_ended(it)} | {client}
                    self.most = max(self.most, len(self.open))
                    self.served += 1
                BEHAVIOURS.get(head.split(b" ")[1].split(b"/")[-1], answer)(client)
        except OSError:
            pass
        finally:
            with self.guard:
                self.open.discard(client)
                client.close()


def has_ended(client):
    try:
        return client.recv(1, socket.MSG_PEEK | socket.MSG_DONTWAIT) == b""
    except BlockingIOError:
        return False
    except OSError:
        return True


def wait(client, seconds):
    """So long, or until the other end closes."""
    select.select([client], [], [], seconds)


def answer(client, body=b"ok"):
    client.sendall(OK + b"Content-Length: %d\r\n\r\n" % len(body) + body)


def slow(client):
    wait(client, 0.3)
    answer(client)


def big(client):
    client.sendall(OK + b"Content-Length: 67108864\r\n\r\n")
    for _ in range(64):
        client.sendall(bytes(1 << 20))


def trickle(client):
    client.sendall(OK + b"Content-Length: 20\r\n\r\n")
    for _ in range(20):
        client.sendall(b"a")
        wait(client, 0.05)


def long_head(client):
    client.sendall(OK)
    for _ in range(1024):
        client.sendall(b"X-Filling: " + 1011 * b"a" + b"\r\n")


BEHAVIOURS = {
    b"ok": answer,
    b"slow": slow,
    b"big": big,
    b"trickle": trickle,
    b"long_head": long_head,
    b"silent": lambda client: wait(client, 30),
    b"closes": lambda client: None,
    b"half_head": lambda client: client.sendall(OK[:12]),
    b"half_body": lambda client: client.sendall(OK + b"Content-Length: 10\r\n\r\nhalf"),
}


class Proxy:
    def __init__(self, *words, files=4096, memory=None):
        def limit():
            resource.setrlimit(resource.RLIMIT_NOFILE, (files, files))
            if memory:
                resource.setrlimit(resource.RLIMIT_AS, (memory, memory))

        name = f"{FOLDER}/standing.cfg"
        with open(name, "w") as file:
            file.write(CONFIG)
        words = [PROGRAM, "run", name, "--places", str(PLACES), *words]
        self.process = subprocess.Popen(words, stdout=subprocess.DEVNULL, stderr=subprocess.PIPE, preexec_fn=limit)
        self.first = self.process.stderr.readline().decode()

    def files(self):
        return len(os.listdir(f"/proc/{self.process.pid}/fd"))

    def read(self, name):
        """A number of the process: Threads, VmRSS or VmSize (KiB)."""
        with open(f"/proc/{self.process.pid}/status") as file:
            return next(int(line.split()[1]) for line in file if line.startswith(name + ":"))

    def stop(self):
        self.process.kill()
        self.process.wait()


def ask(says=HONEST, seconds=10):
    """What a client gets until its connection ends. None: it didn't end."""
    try:
        with socket.create_connection(("127.0.0.1", PROXY), timeout=seconds) as client:
            client.sendall(says)
            got = b""
            while piece := client.recv(65536):
                got += piece
            return got
    except socket.timeout:
        return None
    except OSError:
        return b""


def request(path):
    return b"GET /%s HTTP/1.1\r\nHost: h\r\n\r\n" % path


def together(count, does):
    """What so many threads gave that did this at once."""
    given = [None] * count

    def do(number):
        given[number] = does()

    threads = [threading.Thread(target=do, args=[number]) for number in range(count)]
    for thread in threads:
        thread.start()
    for thread in threads:
        thread.join()
    return given


def wrong_answers(given, *expected):
    """How many clients got something else."""
    lines = [None if it is None else it.split(b"\r\n")[0][9:12] for it in given]
    wrong = [line for line in lines if line not in expected]
    return f"{len(wrong)} of {len(lines)} got {set(wrong)}" if wrong else None


def connect(says, receive=None):
    client = socket.socket()
    if receive:
        client.setsockopt(socket.SOL_SOCKET, socket.SO_RCVBUF, receive)
    client.settimeout(10)
    client.connect(("127.0.0.1", PROXY))
    client.sendall(says)
    return client


def leave(client, resets):
    if resets:
        client.setsockopt(socket.SOL_SOCKET, socket.SO_LINGER, struct.pack("ii", 1, 0))
    client.close()


def honest():
    start = time.time()
    got = ask()
    took = time.time() - start
    return None if (got or b"").startswith(OK) and took < 1 else f"an honest request got {got} after {took:.2f} s"


def silent_clients():
    """Half a head each, and they stay silent; each is closed in the end."""
    clients = [connect(HONEST[:-4]) for _ in range(200)]
    time.sleep(0.2)
    told = honest()
    for client in clients:
        try:
            while client.recv(65536):
                pass
        except socket.timeout:
            return "a silent client wasn't closed"
        except OSError:
            pass
        client.close()
    return told


def leaves_while_it_waits(resets):
    busy = [connect(request(b"slow")) for _ in range(LIMIT)]
    time.sleep(0.1)
    waiting = [connect(request(b"slow")) for _ in range(40)]
    time.sleep(0.1)
    for client in waiting:
        leave(client, resets)
    given = [client.recv(65536) for client in busy]
    return wrong_answers(given, b"200")


def leaves_while_it_is_served(resets):
    clients = [connect(request(b"slow")) for _ in range(40)]
    time.sleep(0.1)
    for client in clients:
        leave(client, resets)
    return None


def leaves_after_a_byte(resets):
    clients = [connect(request(b"trickle")) for _ in range(LIMIT)]
    for client in clients:
        client.recv(1)
        leave(client, resets)
    return None


def reads_nothing():
    clients = [connect(request(b"big"), 4096) for _ in range(2)]
    time.sleep(3)
    told = honest()
    for client in clients:
        client.close()
    return told


def asked(path, *expected):
    return lambda: wrong_answers(together(8, lambda: ask(request(path))), *expected)


def server_comes_and_goes():
    """50 clients for a while, before a server that is down and up again every 300 ms: each is answered."""
    over, answers = time.time() + LOAD_SECONDS, []

    def load():
        while time.time() < over:
            answers.append(ask(request(b"other/ok"), 30))

    threads = [threading.Thread(target=load) for _ in range(50)]
    for thread in threads:
        thread.start()
    while time.time() < over:
        time.sleep(0.3)
        other.down()
        time.sleep(0.3)
        other.up()
    for thread in threads:
        thread.join()
    return wrong_answers(answers, b"200", b"502", b"503") or (None if any((it or b"").startswith(OK) for it in answers) else "none was answered")


def all_places():
    """As many clients at once as there are places: each has one."""
    return wrong_answers(together(PLACES, lambda: ask(HONEST, 30)), b"200")


def settled(proxy):
    """The proxy's files and threads, once they stay as they are for a while."""
    for _ in range(50):
        now = proxy.files(), proxy.read("Threads")
        time.sleep(0.1)
        if (proxy.files(), proxy.read("Threads")) == now:
            break
    return now


def tried(name, proxy, case):
    """A case, and what must hold after it."""
    global cases, failures
    (files, threads), memory = settled(proxy), proxy.read("VmRSS")
    told = case() or honest()
    until = time.time() + 5
    # A connection that was told everything is closed a little later.
    while told is None and (proxy.files(), proxy.read("Threads")) != (files, threads) and time.time() < until:
        time.sleep(0.05)
    if proxy.process.poll() is not None:
        told = f"the proxy ended with status {proxy.process.returncode}"
    elif told is None:
        now = proxy.files(), proxy.read("Threads")
        told = None if now == (files, threads) else f"files and threads {now}, and {(files, threads)} before"
        grown = proxy.read("VmRSS") - memory
        told = told or (None if grown < 32768 else f"{grown} KiB more")
    for server, limit in ((it, LIMIT), (other, OTHERS_LIMIT)):
        told = told or (None if server.most <= limit else f"{server.most} at once at a server of limit {limit}")
    cases, failures = cases + 1, failures + (told is not None)
    print(("ok      " if told is None else "FAILED  ") + name + ("" if told is None else f": {told}"), flush=True)


def stand():
    proxy = Proxy("--workers", "256")
    together(300, ask)
    tried("200 clients send half a head and fall silent", proxy, silent_clients)
    for resets, how in ((True, "a reset"), (False, "an end of input")):
        tried(f"40 clients leave by {how} while they wait", proxy, lambda: leaves_while_it_waits(resets))
        tried(f"40 clients leave by {how} while they are served", proxy, lambda: leaves_while_it_is_served(resets))
        tried(f"clients leave by {how} after a byte of their answer", proxy, lambda: leaves_after_a_byte(resets))
    tried("clients read nothing of 64 MiB", proxy, reads_nothing)
    tried("a server refuses its connections", proxy, asked(b"dead/ok", b"503"))
    tried("a server accepts and falls silent", proxy, asked(b"silent", b"502"))
    tried("a server closes before a head", proxy, asked(b"closes", b"502"))
    tried("a server closes in its head", proxy, asked(b"half_head", b"502"))
    tried("a server closes in its short body, whose head was handed on", proxy, asked(b"half_body", b"200"))
    tried("a server sends a byte now and then", proxy, asked(b"trickle", b"200"))
    tried("a server sends 1 MiB of head", proxy, asked(b"long_head", b"502"))
    tried(f"a server is down and up every 300 ms, {LOAD_SECONDS} s under load", proxy, server_comes_and_goes)
    tried(f"{PLACES} clients have the {PLACES} places", proxy, all_places)
    proxy.stop()


def stand_short():
    """Few files, and little memory: who isn't served is told so or closed."""
    proxy = Proxy("--workers", "256", files=128)
    together(40, ask)
    tried("300 clients, and 128 files", proxy, lambda: wrong_answers(together(300, lambda: ask(HONEST, 30)), b"200", b"502", b"503", b""))
    proxy.stop()
    proxy = Proxy("--workers", "64")
    together(100, ask)
    size = proxy.read("VmSize") * 1024 + (4 << 20)
    proxy.stop()
    proxy = Proxy("--workers", "64", memory=size)
    together(40, ask)
    tried("200 clients, and 4 MiB of memory to spare", proxy, lambda: wrong_answers(together(200, lambda: ask(request(b"slow"), 30)), b"200", b"502", b"503", b""))
    proxy.stop()


it, other = Server(SERVER), Server(OTHER)
stand()
stand_short()
print(f"{cases} cases, {failures} failures; {it.served + other.served} requests at the servers")
sys.exit(1 if failures else 0)
