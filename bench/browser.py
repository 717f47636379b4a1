#!/usr/bin/env python3
"""browser.py PROGRAM FOLDER: a page with sixty pictures, loaded by headless Chromium through connections that stay.

Starts PROGRAM with --keep-alive and --reuse before a server of this script that keeps its connections. Each picture has to come
whole, and as itself: its width is its number. Prints what was loaded and over how many connections, and exits with 1 where a
picture is missing or another's. Needs chromium."""
import os
import re
import shutil
import socket
import struct
import subprocess
import sys
import threading
import zlib

PROGRAM, FOLDER = sys.argv[1:3]
PROXY, SERVER, PICTURES = 18690, 18691, 60
os.makedirs(FOLDER, exist_ok=True)
PAGE = """<!doctype html><title>pictures</title><body><script>
let left = %d, wrong = 0;
const done = (picture, number) => {
  if (picture.naturalWidth !== number) wrong += 1;
  left -= 1;
  if (left === 0) document.body.setAttribute("data-ended", wrong + " wrong");
};
for (let number = 1; number <= %d; number += 1) {
  const picture = new Image();
  picture.onload = picture.onerror = () => done(picture, number);
  picture.src = "/" + number + ".png";
  document.body.append(picture);
}
</script>""" % (PICTURES, PICTURES)
connections = 0


def part(kind, data):
    return struct.pack(">I", len(data)) + kind + data + struct.pack(">I", zlib.crc32(kind + data))


def picture(number):
    """A grey one, so many pixels wide and one high."""
    head = struct.pack(">IIBBBBB", number, 1, 8, 0, 0, 0, 0)
    return b"\x89PNG\r\n\x1a\n" + part(b"IHDR", head) + part(b"IDAT", zlib.compress(b"\0" + b"\x80" * number)) + part(b"IEND", b"")


def serve_one(client):
    held = b""
    with client:
        while True:
            while b"\r\n\r\n" not in held:
                more = client.recv(65536)
                if not more:
                    return
                held += more
            head, held = held.split(b"\r\n\r\n", 1)
            found = re.match(rb"GET /(\d+)\.png ", head)
            body, kind = (picture(int(found[1])), b"image/png") if found else (PAGE.encode(), b"text/html")
            client.sendall(b"HTTP/1.1 200 OK\r\nContent-Type: " + kind + b"\r\nContent-Length: %d\r\n\r\n" % len(body) + body)


def serve():
    global connections
    listener = socket.create_server(("127.0.0.1", SERVER), backlog=512)
    while True:
        client, _ = listener.accept()
        connections += 1
        threading.Thread(target=serve_one, args=(client,), daemon=True).start()


def main():
    threading.Thread(target=serve, daemon=True).start()
    config = os.path.join(FOLDER, "browser.cfg")
    with open(config, "w") as file:
        file.write(f"listen w\n bind 127.0.0.1:{PROXY}\n timeout client 20s\n timeout server 20s\n timeout connect 5s\n server a 127.0.0.1:{SERVER} maxconn 4\n")
    proxy = subprocess.Popen([PROGRAM, "run", config, "--keep-alive", "--reuse"], stdout=subprocess.DEVNULL, stderr=subprocess.PIPE)
    proxy.stderr.readline()
    home = os.path.join(FOLDER, "chromium")
    try:
        told = subprocess.run(["chromium", "--headless=new", "--no-sandbox", "--disable-gpu", f"--user-data-dir={home}", "--virtual-time-budget=20000",
                               "--dump-dom", f"http://127.0.0.1:{PROXY}/"], capture_output=True, text=True, timeout=90).stdout
    finally:
        proxy.kill()
        proxy.wait()
        shutil.rmtree(home, ignore_errors=True)
    ended = re.search(r'data-ended="([^"]*)"', told)
    print(f"{PICTURES} pictures: {ended[1] if ended else 'not all came'}; the server had {connections} connections")
    sys.exit(0 if ended and ended[1] == "0 wrong" else 1)


main()
