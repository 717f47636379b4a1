#!/usr/bin/env python3
"""page.py PROGRAM FOLDER: the page of `run --admin`, in headless Chromium, while a server falls and a queue fills.

Starts PROGRAM before two servers of this script, opens its page, and reads what stands there: both servers up; then one that
falls, a queue that fills in the order of due dates, and the server's return; at last that the proxy is gone. What the page shows
has to be what /state.json says. Prints a line a case and `N of M`, and exits with 1 where one failed. Needs chromium."""
import base64
import json
import os
import re
import shutil
import socket
import struct
import subprocess
import sys
import threading
import time
import urllib.request

PROGRAM, FOLDER = sys.argv[1:3]
PROXY, SERVERS, ADMIN, DEBUG = 18680, (18681, 18682), 18684, 18685
PATIENCE = 8
READ = """JSON.stringify({
  phase: document.getElementById("phase").innerText,
  trouble: document.getElementById("trouble").innerText,
  servers: [...document.querySelectorAll("#servers .server")].map(node => node.innerText),
  queues: [...document.querySelectorAll("#queues .server")].map(node => ({
    head: node.querySelector(".row").innerText,
    tickets: [...node.querySelectorAll("tr td:nth-child(2)")].map(cell => Number(cell.innerText)) })),
})"""


class Origin:
    """A server that answers after a while, and can fall and come back."""

    def __init__(self, port):
        self.port = port
        self.rise()

    def rise(self):
        self.listener = socket.create_server(("127.0.0.1", self.port), backlog=64)
        threading.Thread(target=self.serve, args=(self.listener,), daemon=True).start()

    def fall(self):
        self.listener.shutdown(socket.SHUT_RDWR)
        self.listener.close()

    def serve(self, listener):
        while True:
            try:
                client, _ = listener.accept()
            except OSError:
                return
            threading.Thread(target=self.answer, args=(client,), daemon=True).start()

    @staticmethod
    def answer(client):
        with client:
            if client.recv(65536):
                time.sleep(1.5)
                client.sendall(b"HTTP/1.1 200 OK\r\nContent-Length: 2\r\nConnection: close\r\n\r\nok")


class Browser:
    """A page of headless Chromium, spoken to over a WebSocket (RFC 6455) of its debugging port."""

    def __init__(self, url):
        self.home = os.path.join(FOLDER, "chromium")
        self.process = subprocess.Popen(["chromium", "--headless=new", "--no-sandbox", "--disable-gpu", f"--remote-debugging-port={DEBUG}",
                                         f"--user-data-dir={self.home}", url], stdout=subprocess.DEVNULL, stderr=subprocess.DEVNULL)
        target = until(self.target, 60)
        self.number = 0
        self.socket = socket.create_connection(("127.0.0.1", DEBUG), timeout=20)
        key = base64.b64encode(os.urandom(16)).decode()
        path = target["webSocketDebuggerUrl"].split(str(DEBUG), 1)[1]
        self.socket.sendall(f"GET {path} HTTP/1.1\r\nHost: 127.0.0.1:{DEBUG}\r\nUpgrade: websocket\r\nConnection: Upgrade\r\n"
                            f"Sec-WebSocket-Key: {key}\r\nSec-WebSocket-Version: 13\r\n\r\n".encode())
        self.held = b""
        while b"\r\n\r\n" not in self.held:
            self.held += self.socket.recv(65536)
        self.held = self.held.split(b"\r\n\r\n", 1)[1]

    @staticmethod
    def target():
        try:
            with urllib.request.urlopen(f"http://127.0.0.1:{DEBUG}/json/list", timeout=5) as answer:
                return next((it for it in json.load(answer) if it["type"] == "page"), None)
        except OSError:
            return None

    def take(self, count):
        while len(self.held) < count:
            more = self.socket.recv(65536)
            assert more, "the browser is gone"
            self.held += more
        taken, self.held = self.held[:count], self.held[count:]
        return taken

    def message(self):
        text = b""
        while True:
            first, length = self.take(2)
            if length == 126:
                length = struct.unpack(">H", self.take(2))[0]
            elif length == 127:
                length = struct.unpack(">Q", self.take(8))[0]
            text += self.take(length)
            if first & 128:
                return json.loads(text)

    def call(self, method, **params):
        self.number += 1
        text = json.dumps({"id": self.number, "method": method, "params": params}).encode()
        mask = os.urandom(4)
        size = bytes([128 | len(text)]) if len(text) < 126 else bytes([128 | 126]) + struct.pack(">H", len(text))
        self.socket.sendall(b"\x81" + size + mask + bytes(byte ^ mask[at % 4] for at, byte in enumerate(text)))
        while True:
            got = self.message()
            if got.get("id") == self.number:
                return got["result"]

    def shown(self):
        """What stands on the page; None as long as it isn't loaded."""
        text = self.call("Runtime.evaluate", expression=READ)["result"].get("value")
        return json.loads(text) if text else None

    def close(self):
        self.process.terminate()
        self.process.wait(20)
        shutil.rmtree(self.home, ignore_errors=True)


def until(call, seconds=PATIENCE):
    """What a call answers once that is something; an error where it isn't in time."""
    end = time.monotonic() + seconds
    while time.monotonic() < end:
        got = call()
        if got:
            return got
        time.sleep(0.1)
    raise AssertionError(f"not within {seconds} s")


def state():
    with urllib.request.urlopen(f"http://127.0.0.1:{ADMIN}/state.json", timeout=5) as answer:
        return json.load(answer)


def ask(priority):
    with socket.create_connection(("127.0.0.1", PROXY), timeout=60) as client:
        client.sendall(f"GET /{priority} HTTP/1.1\r\nHost: h\r\n\r\n".encode())
        while client.recv(65536):
            pass


def agrees(page, told):
    """Whether the page shows each server and each queue as /state.json tells them."""
    for shown, server in zip(page["servers"], told["servers"]):
        limit = f"of {server['limit']}"
        wanted = (f"{server['name']} {'up' if server['up'] else 'down'}",
                  f"serves {server['served']} ({limit}); gave {server['direct']} slots at once, {server['granted']} after a wait")
        if any(words not in shown for words in wanted):
            return False
    queues = [queue for queue in told["queues"] if queue["waiting"] or queue["name"] == "*"]
    heads = [re.search(r"(\d+) waits?", queue["head"])[1] for queue in page["queues"]]
    tickets = [queue["tickets"] for queue in page["queues"]]
    return (len(page["servers"]), heads, tickets) == (len(told["servers"]), [str(queue["waiting"]) for queue in queues],
                                                      [[waiter["ticket"] for waiter in queue["next"]] for queue in queues])


def seen(browser, ups, waiting):
    """What the page shows, once it shows these servers up or down, so many that wait, and what /state.json tells before and after."""
    def look():
        before, page, after = state(), browser.shown(), state()
        if not page:
            return None
        page["ups"] = [" up" in shown.split("\n")[0] for shown in page["servers"]]
        still = [before[key] == after[key] for key in ("servers", "queues")]
        held = sum(len(queue["tickets"]) for queue in page["queues"])
        return page if all(still) and agrees(page, after) and page["ups"] == ups and (held > 0) == waiting else None
    return until(look)


def main():
    os.makedirs(FOLDER, exist_ok=True)
    shutil.rmtree(os.path.join(FOLDER, "chromium"), ignore_errors=True)
    path = os.path.join(FOLDER, "page.cfg")
    with open(path, "w") as file:
        file.write(f"listen w\n bind 127.0.0.1:{PROXY}\n timeout client 60s\n timeout server 60s\n timeout connect 1s\n timeout queue 60s\n"
                   " http-request set-priority-offset int(-5000) if { path_beg /soon }\n"
                   f" server a 127.0.0.1:{SERVERS[0]} maxconn 2 check inter 200ms fall 2 rise 1\n"
                   f" server b 127.0.0.1:{SERVERS[1]} maxconn 1 check inter 200ms fall 2 rise 1\n")
    origins = [Origin(port) for port in SERVERS]
    proxy = subprocess.Popen([PROGRAM, "run", path, "--stop-with-stdin", "--admin", f"127.0.0.1:{ADMIN}"], stdin=subprocess.PIPE,
                             stdout=subprocess.DEVNULL, stderr=subprocess.PIPE)
    proxy.stderr.readline(), proxy.stderr.readline()
    browser = Browser(f"http://127.0.0.1:{ADMIN}/")
    ended = 0
    cases = []
    try:
        def case(words, call):
            began = time.monotonic()
            call()
            cases.append(words)
            print(f"ok {words} ({time.monotonic() - began:.1f} s)", flush=True)

        case("both servers are up, and nobody waits", lambda: seen(browser, [True, True], False))
        origins[0].fall()
        case("a server falls", lambda: seen(browser, [False, True], False))
        clients = [threading.Thread(target=ask, args=(words,), daemon=True) for words in ("late", "late", "soon", "late", "soon")]
        for client in clients:
            client.start()
            time.sleep(0.05)

        def in_order():
            page = seen(browser, [False, True], True)
            assert any(len(queue["tickets"]) > 1 for queue in page["queues"]), page
        case("a queue fills, in the order of due dates", in_order)
        origins[0].rise()
        case("the server comes back", lambda: until(lambda: seen(browser, [True, True], False), 20))
        for client in clients:
            client.join(30)
        proxy.stdin.close()
        proxy.wait(30)
        case("the proxy is gone", lambda: until(lambda: "no answer" in browser.shown()["trouble"]))
    except AssertionError as error:
        print(f"FAILED behind {cases[-1:]}: {error}; the page shows {browser.shown()}")
        ended = 1
    finally:
        browser.close()
        if proxy.poll() is None:
            proxy.kill()
    print(f"{len(cases)} of 5")
    return ended


sys.exit(main())
