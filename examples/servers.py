#!/usr/bin/env python3
"""Three servers at 127.0.0.1:9001, 9002 and 9003 for examples/walk.cfg: a answers after 3 seconds, b after 5, c after 7."""
import http.server
import threading
import time


def handler(name, seconds):
    class Handler(http.server.BaseHTTPRequestHandler):
        def do_GET(self):
            time.sleep(seconds)
            body = f"{name} answers {self.path}\n".encode()
            self.send_response(200)
            self.send_header("Content-Length", str(len(body)))
            self.end_headers()
            self.wfile.write(body)

        def log_message(self, *_):
            pass

    return Handler


for port, name, seconds in (9001, "a", 3), (9002, "b", 5), (9003, "c", 7):
    server = http.server.ThreadingHTTPServer(("127.0.0.1", port), handler(name, seconds))
    threading.Thread(target=server.serve_forever).start()
