#!/usr/bin/env python3
"""tls.py PROGRAM FOLDER: the examples of docs/OPERATING.md for TLS before the proxy.

Makes a self-signed certificate as OPERATING says, starts PROGRAM before a server of this script, and before
PROGRAM hitch and stunnel, each where it is installed, by exactly the text that OPERATING shows for it, in
which only the port, the proxy's port and the certificate's file are replaced. Asks through each by curl
and by Python's ssl. Prints a line a case and `N of M`, and exits with 1 where one failed, where the document
has no text for one of them, or where neither is installed."""
import hashlib
import http.client
import json
import os
import pathlib
import re
import shutil
import socket
import ssl
import subprocess
import sys
import threading
import time

PROGRAM, FOLDER = sys.argv[1], pathlib.Path(sys.argv[2]).resolve()
DOCUMENT = pathlib.Path(__file__).resolve().parent.parent / "docs" / "OPERATING.md"
PROXY, SERVER, FRONT = 18590, 18591, 18593
SLOW = 2.0
CASES = []
SEEN = {"now": 0, "left": 0, "fields": b""}
LOCK = threading.Lock()
PEM = FOLDER / "site.pem"
LOG = FOLDER / "access"


def case(function):
    CASES.append(function)
    return function


def body_of(reader, head):
    """A request's body, by its length or in chunks."""
    length = re.search(rb"\r\ncontent-length: *(\d+)", head, re.I)
    if length:
        return reader.read(int(length[1]))
    body = b""
    if re.search(rb"\r\ntransfer-encoding: *chunked", head, re.I):
        while size := int(reader.readline(), 16):
            body += reader.read(size)
            reader.readline()
        reader.readline()
    return body


def serve_one(client):
    """Answers with what it read; /slow after a while, /long with 8 MiB."""
    with client, client.makefile("rb") as reader:
        head = b""
        while (line := reader.readline()).strip():
            head += line
        if not head:
            return
        try:
            body = body_of(reader, head)
        except (OSError, ValueError):
            return
        path = head.split()[1]
        with LOCK:
            SEEN["now"] += 1
            SEEN["fields"] = head
        try:
            if path == b"/slow":
                # The proxy closes the connection when its client has gone.
                client.settimeout(SLOW)
                try:
                    if not client.recv(1):
                        with LOCK:
                            SEEN["left"] += 1
                        return
                except TimeoutError:
                    pass
            client.settimeout(20)
            answer = b"x" * (8 << 20) if path == b"/long" else f"{path.decode()} {len(body)} {hashlib.sha256(body).hexdigest()}".encode()
            client.sendall(b"HTTP/1.1 200 OK\r\nContent-Length: %d\r\n\r\n" % len(answer) + answer)
        except OSError:
            with LOCK:
                SEEN["left"] += 1
        finally:
            with LOCK:
                SEEN["now"] -= 1


def server():
    listener = socket.create_server(("127.0.0.1", SERVER), backlog=256)
    while True:
        client, _ = listener.accept()
        threading.Thread(target=serve_one, args=(client,), daemon=True).start()


def until(condition, seconds=5):
    since = time.monotonic()
    while not condition():
        assert time.monotonic() - since < seconds, "in vain"
        time.sleep(0.02)


def listens(port):
    try:
        socket.create_connection(("127.0.0.1", port), timeout=2).close()
        return True
    except OSError:
        return False


class Proxy:
    def __enter__(self):
        path = FOLDER / "tls.cfg"
        path.write_text(f"listen w\n mode http\n bind 127.0.0.1:{PROXY}\n option abortonclose\n timeout client 10s\n timeout server 20s\n"
                        f" timeout connect 5s\n server a 127.0.0.1:{SERVER} maxconn 8\n")
        LOG.unlink(missing_ok=True)
        self.process = subprocess.Popen([PROGRAM, "run", str(path), "--keep-alive", "--forwarded-for", "--access-log", str(LOG), "--access-log-format", "json",
                                         "--stop-with-stdin"], stdin=subprocess.PIPE, stdout=subprocess.DEVNULL, stderr=subprocess.PIPE)
        self.process.stderr.readline()
        return self

    def __exit__(self, *_):
        self.process.kill()
        self.process.communicate()


def shown(name):
    """The text that the document shows for a program."""
    found = re.search(rf"^```{name}\n(.*?)^```$", DOCUMENT.read_text(), re.M | re.S)
    assert found, f"OPERATING shows no text for {name}"
    return found[1]


def replaced(text, *pairs):
    for old, new in pairs:
        assert text.count(old) == 1, (old, text)
        text = text.replace(old, new)
    return text


class Hitch:
    name = "hitch"
    program = shutil.which("hitch") or "/usr/sbin/hitch"

    def words(self):
        path = FOLDER / "hitch.conf"
        path.write_text(replaced(shown("hitch"), ("]:443", f"]:{FRONT}"), ("127.0.0.1]:8080", f"127.0.0.1]:{PROXY}"), ("/etc/hitch/site.pem", str(PEM))))
        # As Debian's unit has it.
        return [self.program, *(["--user", "_hitch", "--group", "_hitch"] if os.geteuid() == 0 else []), "--config", str(path), "--quiet"]


class Stunnel:
    name = "stunnel"
    program = shutil.which("stunnel4") or "/usr/bin/stunnel4"

    def words(self):
        path = FOLDER / "stunnel.conf"
        path.write_text(replaced(shown("stunnel"), ("accept = 443", f"accept = {FRONT}"), ("127.0.0.1:8080", f"127.0.0.1:{PROXY}"), ("/etc/stunnel/site.pem", str(PEM))))
        return [self.program, str(path)]


class Before:
    """A program that ends TLS, before the proxy."""

    def __init__(self, kind):
        self.kind = kind

    def __enter__(self):
        self.said = open(FOLDER / f"{self.kind.name}.said", "wb")
        self.process = subprocess.Popen(self.kind.words(), stdin=subprocess.DEVNULL, stdout=self.said, stderr=self.said)
        try:
            until(lambda: self.process.poll() is None and listens(FRONT))
        except AssertionError:
            self.__exit__()
            raise AssertionError((FOLDER / f"{self.kind.name}.said").read_text()[-300:]) from None
        return self

    def __exit__(self, *_):
        self.process.terminate()
        try:
            self.process.wait(10)
        except subprocess.TimeoutExpired:
            self.process.kill()
        self.said.close()


def trusted():
    return ssl.create_default_context(cafile=FOLDER / "site.crt")


def connected():
    return trusted().wrap_socket(socket.create_connection(("127.0.0.1", FRONT), timeout=20), server_hostname="localhost")


def curl(*words):
    done = subprocess.run(["curl", "-sS", "--max-time", "30", "--cacert", str(FOLDER / "site.crt"), "--resolve", f"localhost:{FRONT}:127.0.0.1", *words],
                          capture_output=True, timeout=40)
    assert done.returncode == 0, done.stderr
    return done.stdout.decode()


def expected(path, body=b""):
    return f"{path} {len(body)} {hashlib.sha256(body).hexdigest()}"


def url(path):
    return f"https://localhost:{FRONT}{path}"


@case
def a_get_is_answered():
    assert curl(url("/one")) == expected("/one")


@case
def a_body_in_chunks_arrives():
    body = os.urandom(1 << 20)
    (FOLDER / "body").write_bytes(body)
    assert curl("-X", "POST", "-H", "Transfer-Encoding: chunked", "-H", "Expect:", "--data-binary", f"@{FOLDER / 'body'}", url("/post")) == expected("/post", body)
    assert b"chunked" in SEEN["fields"].lower()


@case
def two_requests_on_a_connection():
    """By curl, which says how many connections it made, and by two that are sent at once."""
    assert curl("-w", "%{num_connects} ", url("/1"), "-o", "/dev/null", url("/2"), "-o", "/dev/null") == "1 0 "
    with connected() as client:
        client.sendall(b"GET /3 HTTP/1.1\r\nHost: localhost\r\n\r\nGET /4 HTTP/1.1\r\nHost: localhost\r\nConnection: close\r\n\r\n")
        got = b""
        while more := client.recv(65536):
            got += more
    assert got.count(b"HTTP/1.1 200 OK") == 2 and got.index(expected("/3").encode()) < got.index(expected("/4").encode()), got


@case
def a_long_answer_is_whole():
    connection = http.client.HTTPSConnection("localhost", FRONT, timeout=30, context=trusted())
    connection.request("GET", "/long")
    assert connection.getresponse().read() == b"x" * (8 << 20)
    connection.close()


@case
def a_refusal_comes_through():
    with connected() as client:
        client.sendall(b"no head\r\n\r\n")
        assert client.recv(65536).startswith(b"HTTP/1.1 400 ")


@case
def a_client_that_leaves_while_it_is_served():
    """Its server is told within two seconds, and the next is served."""
    before = SEEN["left"]
    client = connected()
    client.sendall(b"GET /slow HTTP/1.1\r\nHost: localhost\r\n\r\n")
    until(lambda: SEEN["now"] == 1)
    client.close()
    until(lambda: SEEN["left"] == before + 1 and SEEN["now"] == 0, SLOW + 1)
    assert curl(url("/next")) == expected("/next")


@case
def a_client_that_leaves_amid_an_answer():
    client = connected()
    client.sendall(b"GET /long HTTP/1.1\r\nHost: localhost\r\n\r\n")
    client.recv(1000)
    client.close()
    until(lambda: SEEN["now"] == 0, 10)
    assert curl(url("/next")) == expected("/next")


@case
def a_client_that_leaves_amid_its_body():
    client = connected()
    client.sendall(b"POST /half HTTP/1.1\r\nHost: localhost\r\nContent-Length: 100000\r\n\r\nhalf")
    time.sleep(0.2)
    client.close()
    until(lambda: SEEN["now"] == 0, 10)
    assert curl(url("/next")) == expected("/next")


@case
def the_clients_address_is_of_the_loopback():
    """What the document says: of X-Forwarded-For, and of X-Forwarded-Proto."""
    assert curl(url("/who")) == expected("/who")
    assert b"\r\nX-Forwarded-For: 127.0.0.1\r\n" in SEEN["fields"] and b"proto" not in SEEN["fields"].lower(), SEEN["fields"]


@case
def old_versions_are_refused():
    words = ["openssl", "s_client", "-connect", f"127.0.0.1:{FRONT}", "-tls1_1", "-cipher", "ALL:@SECLEVEL=0"]
    done = subprocess.run(words, stdin=subprocess.DEVNULL, capture_output=True, text=True, timeout=20)
    assert done.returncode != 0 and "alert protocol version" in done.stderr, done.stderr


@case
def http_2_is_not_offered():
    assert curl("--http2", "-o", "/dev/null", "-w", "%{http_version}", url("/")) == "1.1"


@case
def forty_at_once():
    told = []
    threads = [threading.Thread(target=lambda at=at: told.append(curl(url(f"/{at}")) == expected(f"/{at}"))) for at in range(40)]
    for thread in threads:
        thread.start()
    for thread in threads:
        thread.join()
    assert told == [True] * 40, told


@case
def proxy_protocol_is_refused():
    """What the document says of it, without TLS."""
    with socket.create_connection(("127.0.0.1", PROXY), timeout=10) as client:
        client.sendall(b"PROXY TCP4 192.0.2.1 192.0.2.2 1 2\r\nGET / HTTP/1.1\r\nHost: h\r\n\r\n")
        assert client.recv(65536).startswith(b"HTTP/1.1 400 ")


def tried(name, function):
    try:
        function()
        print("ok     ", name, flush=True)
        return True
    except Exception as error:
        print("FAILED ", name, repr(error)[:300], flush=True)
        return False


def all_of(kind):
    """The cases behind one program, and that it all ends."""
    told = []
    with Proxy() as proxy:
        before = Before(kind)
        told.append(tried(f"{kind.name}: it starts by the document's text", before.__enter__))
        if not told[0]:
            return told
        try:
            for function in CASES:
                told.append(tried(f"{kind.name}: {function.__name__}", function))
        finally:
            told.append(tried(f"{kind.name}: it ends", before.__exit__))

        def ends():
            proxy.process.stdin.close()
            proxy.process.stdin = None
            assert proxy.process.wait(10) == 0
            assert all(json.loads(line)["client"].startswith("127.0.0.1") for line in LOG.read_text().splitlines())

        told.append(tried(f"{kind.name}: the proxy ends behind it, and its log names the loopback", ends))
    return told


def main():
    os.makedirs(FOLDER, exist_ok=True)
    PEM.unlink(missing_ok=True)
    lines = re.search(r"^    openssl req(?:.|\n)*?> site.pem$", DOCUMENT.read_text(), re.M)[0]
    made = subprocess.run(["sh", "-ec", f"umask 077\n{lines}"], cwd=FOLDER, capture_output=True)
    assert made.returncode == 0, made.stderr
    threading.Thread(target=server, daemon=True).start()
    told = []
    for kind in (Hitch(), Stunnel()):
        if os.path.exists(kind.program):
            told += all_of(kind)
        else:
            print(f"{kind.name} isn't installed", flush=True)
    print(f"{sum(told)} of {len(told)}")
    sys.exit(not told or not all(told))


main()
