#!/usr/bin/env python3
"""The servers and one of the clients of bench/peers.sh.

serve PORT: a server of Python's; it answers a GET with /COUNT with that many bytes, and a POST with the digest of what it received, and notes each request's head.
client PORT: Python's http.client against a proxy at this port; prints a line for each thing that it tried.
"""
import hashlib
import http.client
import http.server
import socketserver
import sys


class Handler(http.server.BaseHTTPRequestHandler):
    protocol_version = "HTTP/1.1"

    def body(self):
        if self.headers.get("Transfer-Encoding", "").lower() == "chunked":
            while True:
                size = int(self.rfile.readline().split(b";")[0], 16)
                if size == 0:
                    while self.rfile.readline() not in (b"\r\n", b""):
                        pass
                    return
                yield self.rfile.read(size)
                self.rfile.readline()
        left = int(self.headers.get("Content-Length", 0))
        while left:
            piece = self.rfile.read(min(left, 65536))
            left -= len(piece)
            yield piece

    def answer(self, body):
        self.send_response(200)
        self.send_header("Content-Length", str(len(body)))
        self.end_headers()
        if self.command != "HEAD":
            self.wfile.write(body)

    def do_POST(self):
        digest = hashlib.sha256()
        for piece in self.body():
            digest.update(piece)
        self.answer(digest.hexdigest().encode())

    def do_GET(self):
        if self.path == "/chunked":
            self.send_response(200)
            self.send_header("Transfer-Encoding", "chunked")
            self.end_headers()
            for piece in (b"one ", b"two ", b"three"):
                self.wfile.write(b"%x\r\n%s\r\n" % (len(piece), piece))
            self.wfile.write(b"0\r\n\r\n")
        elif self.path == "/204":
            self.send_response(204)
            self.end_headers()
        else:
            self.answer(b"x" * int(self.path.strip("/p") or 2))

    do_HEAD = do_GET

    def log_message(self, *_):
        pass


class Server(socketserver.ThreadingMixIn, http.server.HTTPServer):
    daemon_threads = True
    request_queue_size = 512


def tried(name, ok):
    print(("ok      " if ok else "FAILED  ") + "http.client: " + name)
    return ok


def client(port):
    def ask(method, path, body=None, headers={}, chunked=False):
        connection = http.client.HTTPConnection("127.0.0.1", port, timeout=30)
        connection.request(method, path, body, headers, encode_chunked=chunked)
        answer = connection.getresponse()
        return answer.status, answer.read()

    sent = b"a body" * 1000
    digest = hashlib.sha256(sent).hexdigest().encode()
    all_ok = tried("GET", ask("GET", "/p/7") == (200, b"x" * 7))
    all_ok &= tried("HEAD", ask("HEAD", "/p/7") == (200, b""))
    all_ok &= tried("POST with a length", ask("POST", "/p", sent) == (200, digest))
    pieces = (sent[i : i + 1000] for i in range(0, len(sent), 1000))
    all_ok &= tried("POST in chunks", ask("POST", "/p", pieces, {"Transfer-Encoding": "chunked"}, True) == (200, digest))
    all_ok &= tried("an answer in chunks", ask("GET", "/chunked") == (200, b"one two three"))
    all_ok &= tried("204", ask("GET", "/204") == (204, b""))
    sys.exit(0 if all_ok else 1)


if sys.argv[1] == "serve":
    Server(("127.0.0.1", int(sys.argv[2])), Handler).serve_forever()
else:
    client(int(sys.argv[2]))
