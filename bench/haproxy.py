#!/usr/bin/env python3
"""What HAProxy does with the README's case: which of a hundred requests that wait is served first where the last one is due first, and
how many requests a server has at once. It starts the `haproxy` on the path before a small server that counts, on free ports of the
loopback, and needs nothing but Python beside it. It takes about a minute.

    python3 bench/haproxy.py"""
import collections
import http.client
import http.server
import os
import shutil
import socket
import subprocess
import sys
import tempfile
import threading
import time

CONFIG = """
global
    maxconn 4096
defaults
    mode http
    timeout connect 5s
    timeout client 60s
    timeout server 60s
    timeout queue 60s
listen w
    bind 127.0.0.1:{front}
    http-request set-priority-offset hdr(X-Offset)
    server s 127.0.0.1:{back} maxconn {limit}
"""


class Counter(http.server.BaseHTTPRequestHandler):
    """Answers once it is let go on, and notes who came in which order, and how many were there at once."""

    protocol_version = "HTTP/1.1"
    lock = threading.Lock()
    order = []
    present = 0
    most = 0
    seconds = 0.0
    gate = threading.Event()

    def do_GET(self):
        name = self.path.lstrip("/")
        cls = Counter
        with cls.lock:
            cls.order.append(name)
            cls.present += 1
            cls.most = max(cls.most, cls.present)
        if name == "first":
            cls.gate.wait(30)
        time.sleep(cls.seconds)
        with cls.lock:
            cls.present -= 1
        self.send_response(200)
        self.send_header("Content-Length", "0")
        self.end_headers()

    def log_message(self, *args):
        pass


class Server(http.server.ThreadingHTTPServer):
    daemon_threads = True
    request_queue_size = 1024

    def handle_error(self, request, client_address):
        pass


def free_port():
    with socket.socket() as s:
        s.bind(("127.0.0.1", 0))
        return s.getsockname()[1]


def ask(port, name, offset=None):
    headers = {} if offset is None else {"X-Offset": str(offset)}
    connection = http.client.HTTPConnection("127.0.0.1", port, timeout=60)
    connection.request("GET", "/" + name, headers=headers)
    connection.getresponse().read()
    connection.close()


class Proxy:
    def __init__(self, limit):
        self.front, self.back = free_port(), free_port()
        self.folder = tempfile.mkdtemp()
        path = os.path.join(self.folder, "haproxy.cfg")
        with open(path, "w") as f:
            f.write(CONFIG.format(front=self.front, back=self.back, limit=limit))
        self.server = Server(("127.0.0.1", self.back), Counter)
        threading.Thread(target=self.server.serve_forever, daemon=True).start()
        self.process = subprocess.Popen(["haproxy", "-db", "-q", "-f", path], stderr=subprocess.DEVNULL)
        time.sleep(0.7)

    def close(self):
        self.process.terminate()
        self.process.wait()
        self.server.shutdown()
        shutil.rmtree(self.folder)


def place_of_the_first_due(offset, others=99, apart=0.004):
    """Its place among the hundred that wait, where it came last and has this offset."""
    Counter.order, Counter.present, Counter.most, Counter.seconds = [], 0, 0, 0.0
    Counter.gate = threading.Event()
    proxy = Proxy(1)
    threads = [threading.Thread(target=ask, args=(proxy.front, "first"))]
    threads[0].start()
    time.sleep(0.2)
    for i in range(others):
        threads.append(threading.Thread(target=ask, args=(proxy.front, f"w{i}")))
        threads[-1].start()
        time.sleep(apart)
    threads.append(threading.Thread(target=ask, args=(proxy.front, "due", offset)))
    threads[-1].start()
    time.sleep(0.3)
    Counter.gate.set()
    for t in threads:
        t.join()
    proxy.close()
    served = [n for n in Counter.order if n != "first"]
    return served.index("due") + 1, len(served)


def most_at_once(limit, rounds=40, requests=200):
    """How many rounds had so many requests at the server at once, at most."""
    Counter.order, Counter.present, Counter.most, Counter.seconds = [], 0, 0, 0.002
    Counter.gate = threading.Event()
    Counter.gate.set()
    proxy = Proxy(limit)
    rounds_of = collections.Counter()
    for _ in range(rounds):
        Counter.most = 0
        threads = [threading.Thread(target=ask, args=(proxy.front, f"r{i}")) for i in range(requests)]
        for t in threads:
            t.start()
        for t in threads:
            t.join()
        rounds_of[Counter.most] += 1
    proxy.close()
    return dict(rounds_of)


if __name__ == "__main__":
    if shutil.which("haproxy") is None:
        sys.exit("haproxy isn't on the path")
    print(subprocess.run(["haproxy", "-v"], capture_output=True, text=True).stdout.splitlines()[0])
    for offset in [-5000, -100000, -300000, -500000, -524287]:
        place, of = place_of_the_first_due(offset)
        print(f"offset {offset}: served as number {place} of {of}")
    for most, rounds in sorted(most_at_once(4).items()):
        print(f"maxconn 4: at most {most} at once in {rounds} bursts of 200 requests")
