#!/usr/bin/env python3
"""convert_answers.py PROGRAM FOLDER [COUNT [SEED]]: what `dueproxy convert` writes is answered as the old configuration is.

For each example of Debian's haproxy package of which a listen comes, and for COUNT (200) pseudo-random
configurations of bench/convert.py with pins, backends' own rules and servers of weight 0 besides, it
starts HAProxy on the old file, HAProxy on the converted one, and PROGRAM on the converted one, asks each
the same requests, each twice, and compares status, server, and the class and offset that the rules decided.
In copies, binds and servers get ports of the loopback, `global` is left out, and answers get fields
with what HAProxy decided. Of the old file a line is left out, or changed, where `convert` says on
standard error that it changes something: so each difference is one that isn't told.
Compared are requests that the old file sends to the chosen backend. A server is compared where one of
the two sends both times to the same, else the servers of all requests. What FORMATS tells of HAProxy
(a due date that is no number) isn't asked of PROGRAM. It needs `haproxy` on the path.
Prints a line for each configuration where something differs, and keeps its files in FOLDER; then what was compared,
and `N of M`; exits with 1 where one differs."""
import asyncio
import concurrent.futures
import contextlib
import json
import pathlib
import random
import re
import shutil
import socket
import subprocess
import sys
import threading
import time

sys.dont_write_bytecode = True
from convert import EXAMPLES, Wish

SERVERS, MOST_SERVERS = 24000, 64
FRONTS = 24100
WORKERS = 3
SECTIONS = ("global", "defaults", "frontend", "backend", "listen", "peers", "resolvers", "userlist", "cache", "program", "mailers", "ring",
            "http-errors", "fcgi-app", "log-forward")
TOLD = re.compile(r"^lines? ([0-9, and]+): (.*?): ")
FIELDS = ["    http-after-response set-header X-Class %[prio_class]", "    http-after-response set-header X-Offset %[prio_offset]",
          "    http-after-response set-header X-Backend %[be_name]"]


class Further(Wish):
    """A configuration that has pins too, rules and ACLs in the sections with servers, and further ways to write tests."""

    def tests(self):
        rows = ["acl one path -i /A", "acl two path -m beg /a", "acl three req.hdr(host) -m str a.test", "acl four hdr(x-kind) -i Slow fast",
                "acl five path_end -i -m end .PNG", "acl six method GET HEAD", "acl seven path -n -- / /z", 'acl eight hdr(host) "b.test"',
                "acl nine hdr(x-due) 5 0", "acl one method -i GET", "acl two path_beg -i /IMG /css"]
        if not self.plain:
            rows += ["acl three path_dir img", "acl four hdr(x-kind,1) slow", "acl six hdr_cnt(x-due) 1", "acl ten method -i patch"]
        return super().tests() + self.some(rows, 0.1)

    def condition(self, tests):
        text = super().condition(tests)
        more = ["METH_GET", "!METH_POST", "{ path_beg /a }", "!{ path / }", "! { hdr(x-kind) -m str slow }", "{ method POST } !METH_HEAD", "|| METH_DELETE"]
        if not self.plain:
            more += ["TRUE", "HTTP_1.1", "{ src 127.0.0.0/8 }"]
        return f"{text} {self.chance.choice(more)}" if self.chance.random() < 0.3 else text

    def rules(self, tests):
        rows = ["http-request set-priority-class hdr_val(x-class)", "http-request set-priority-offset int(-600000) if { method PUT }",
                "http-request set-priority-class req.hdr_val(x-class) if METH_GET"]
        if not self.plain:
            rows += ["http-request set-priority-offset req.hdr(x-due)", "http-request set-priority-class int(4),add(3)"]
        return super().rules(tests) + self.some(rows, 0.1)

    def servers(self):
        lines = [line.replace(" backup", " weight 0") if self.chance.random() < 0.3 else line for line in super().servers()]
        tests = self.tests()
        yield from tests
        if tests:
            names = [line.split()[1] for line in lines]
            pins = [f"use-server {self.chance.choice(names)} {self.chance.choice(['if', 'unless'])} {self.condition(tests)}" for _ in range(2)]
            yield from self.some(pins + [f"http-request set-priority-class int({self.chance.choice([-3000, -1, 7])}) if {self.condition(tests)}"], 0.4)
        yield from lines


class Server:
    """All servers: each answers with its port."""

    def __init__(self):
        threading.Thread(target=lambda: asyncio.run(self.run()), daemon=True).start()

    async def run(self):
        for at in range(MOST_SERVERS):
            await asyncio.start_server(self.serve, "127.0.0.1", SERVERS + at)
        await asyncio.Event().wait()

    async def serve(self, reader, writer):
        port = writer.get_extra_info("sockname")[1]
        with contextlib.suppress(OSError, asyncio.IncompleteReadError):
            while True:
                head = (await reader.readuntil(b"\r\n\r\n")).decode("latin-1")
                length = re.search(r"\r\ncontent-length: *(\d+)", head, re.I)
                if length:
                    await reader.readexactly(int(length[1]))
                body = b"" if head.startswith("HEAD ") else b"ok"
                last = re.search(r"\r\nconnection: *close", head, re.I)
                writer.write(b"HTTP/1.1 200 OK\r\nX-Server: %d\r\nContent-Length: 2\r\n%s\r\n" % (port, b"Connection: close\r\n" if last else b"") + body)
                await writer.drain()
                if last:
                    break
        writer.close()


class Old:
    """The old file, line by line, and which servers and binds its sections have."""

    def __init__(self, text):
        self.lines = text.splitlines()
        self.at = []
        name = kind = ""
        for line in self.lines:
            words = line.split("#")[0].split()
            if words and words[0] in SECTIONS:
                kind, name = words[0], words[1] if len(words) > 1 else ""
            self.at.append((kind, name, words))
        self.servers = {}
        for kind, name, words in self.at:
            if kind in ("backend", "listen") and words and words[0] == "server":
                self.servers[name, words[1]] = SERVERS + len(self.servers) % MOST_SERVERS

    def is_spare(self, back):
        """Whether all servers of a section are of reserve."""
        rows = [words for kind, name, words in self.at if kind in ("backend", "listen") and name == back and words and words[0] == "server"]
        return len(rows) > 1 and all("backup" in words for words in rows)

    def choices(self):
        """Words for `convert`, the section where clients come in, and that with servers."""
        made = [([], *pair) for pair in self.pairs()[:1]]
        for front, back in self.pairs()[1:]:
            made.append((["--frontend", front, "--backend", back], front, back))
        return made

    def pairs(self):
        found = []
        for kind, name, words in self.at:
            if kind == "listen" and words and words[0] == "server" and (name, name) not in found:
                found.append((name, name))
            if kind == "frontend" and words and words[0] in ("default_backend", "use_backend"):
                found.insert(len(found) - (len(found) > 0 and found[-1][0] == name and words[0] == "default_backend"), (name, words[1]))
        return found

    def rewritten(self, told, port, front):
        """A copy on ports from this one on, without what was told, and the port of the section where clients come in."""
        made, asked, moded = ["global", "    nbthread 1", "    maxconn 500"], None, any("no mode" in label for _, label in told)
        for number, (line, (kind, name, words)) in enumerate(zip(self.lines, self.at), 1):
            labels = [label for lines, label in told if number in lines]
            if kind == "global" or not words:
                continue
            if words[0] in SECTIONS:
                made.append(line)
                made += ["    mode http"] if moded and kind in ("frontend", "backend", "listen") else []
                made += FIELDS if kind in ("frontend", "listen") else []
                made += ["    balance leastconn"] if kind in ("backend", "listen") and any("no balance" in label for _, label in told) else []
            elif words[0] == "bind":
                if not any(word in words for word in ("ssl", "accept-proxy")):
                    made.append(f"    bind 127.0.0.1:{port} {' '.join(words[2:])}")
                    asked = port if name == front and asked is None else asked
                    port += 1
            elif words[0] == "server" and kind in ("backend", "listen"):
                if not any(label.startswith("server ") and not label.startswith("server ..") for label in labels):
                    made.append(f"    server {words[1]} 127.0.0.1:{self.servers[name, words[1]]} {' '.join(self.settings(words[3:], labels, self.is_spare(name)))}")
            elif words[0] == "balance" and labels:
                made.append("    balance leastconn")
            elif words[0] == "use_backend" or not labels:
                made.append(line)
        return "\n".join(made) + "\n", asked

    def settings(self, words, labels, spare):
        """Settings of a server; one of reserve takes what is bound to it alone, or its part where there are no others, where that was told."""
        if spare:
            return [word for word in words if word != "backup"]
        if "server .. backup" not in labels:
            return words
        at = words.index("weight") if "weight" in words else len(words)
        return [word for word in words[:at] + words[at + 2:] if word != "backup"] + ["weight", "0"]


def told_by(text):
    """What `convert` said that it changes: the numbers of lines, and the words."""
    told = []
    for line in text.splitlines():
        found = TOLD.match(line)
        numbers = [int(word) for word in re.findall(r"\d+", found[1])] if found else []
        told.append((numbers, found[2] if found else line.split(":")[0]))
    return told


def new_rewritten(text, old, back, port, fields):
    made = []
    for line in text.splitlines():
        words = line.split("#")[0].split()
        if words[:1] == ["bind"]:
            line = f"    bind 127.0.0.1:{port}"
        elif words[:1] == ["server"]:
            line = f"    server {words[1]} 127.0.0.1:{old.servers[back, words[1]]} {' '.join(words[3:])}"
        made.append(line)
        if words[:1] == ["listen"]:
            made += fields
    # `global` is told to HAProxy too, and none of it is of the loopback.
    if fields:
        made = ["global", "    nbthread 1", "    maxconn 500"] + made[next(at for at, line in enumerate(made) if line.startswith("listen ")):]
    return "\n".join(made) + "\n"


def requests_of(chance):
    """Requests of which the rules speak, as method, path, fields, and whether PROGRAM means the same as HAProxy by it."""
    made = [("GET", "/", [("Host", "c.test")], True), ("GET", "/a/1", [("Host", "a.test")], True),
            ("POST", "/z", [("Host", "c.test"), ("X-Due", "5")], True), ("GET", "/b.png", [("Host", "c.test"), ("X-Due", "abc")], False)]
    while len(made) < 20:
        path = chance.choice(["/", "/a", "/a/x", "/b.png", "/ab", "/x/y", "/z", "/z/1", "/A", "/img/1.png", "/css", "/up", "/c"])
        host = chance.choice(["a.test", "b.test", "A.Test", "c.test", "img.c.test", "a.test.c"])
        fields = [("Host", host)]
        for name, values in (("X-Due", ["5", "-7", "0", "524288", "-999999999", "12, 40", "000123"]), ("X-Class", ["5", "-3000", "2047"]),
                             ("X-Kind", ["slow", "fast", "SLOW", "fast, slow", "slow,fast", "slowest", "", "slow,"]), ("User-Agent", ["bot/1", "curl"])):
            while chance.random() < 0.3:
                fields.append((name, chance.choice(values)))
        path = f"http://{host}{path}" if chance.random() < 0.1 else path + chance.choice(["", "", "", "?/a", "?b=.png"])
        method = chance.choice(["GET", "GET", "GET", "POST", "HEAD", "PUT", "OPTIONS", "DELETE", "post", "PATCH"])
        made.append((method, path, fields, True))
    return made


def ask(port, number, method, path, fields):
    """The status, and the fields of the answer that count."""
    target = f"{path}{'&' if '?' in path else '?'}n={number}"
    lines = [f"{method} {target} HTTP/1.1"] + [f"{name}: {value}" for name, value in fields] + ["Connection: close"]
    body = b"body" if method in ("POST", "PUT") else b""
    if body:
        lines.append(f"Content-Length: {len(body)}")
    got = b""
    with socket.create_connection(("127.0.0.1", port), timeout=10) as client:
        client.sendall("\r\n".join(lines).encode() + b"\r\n\r\n" + body)
        while more := client.recv(65536):
            got += more
    head = got.split(b"\r\n\r\n")[0].decode("latin-1").split("\r\n")
    named = dict(line.lower().split(": ", 1) for line in head[1:])
    numbers = [int(named[name]) if named.get(name) else None for name in ("x-server", "x-class", "x-offset")]
    return {"status": head[0].split()[1] if head[0] else "none", "server": numbers[0], "class": numbers[1], "offset": numbers[2], "backend": named.get("x-backend")}


@contextlib.contextmanager
def running(words, port, folder):
    """A program that listens at a port."""
    with open(folder / f"said-{port}", "wb") as said:
        process = subprocess.Popen(words, stdin=subprocess.DEVNULL, stdout=said, stderr=said)
        try:
            since = time.monotonic()
            while True:
                try:
                    socket.create_connection(("127.0.0.1", port), timeout=5).close()
                    break
                except ConnectionRefusedError:
                    if process.poll() is not None or time.monotonic() - since > 10:
                        raise RuntimeError(f"{words[0]} doesn't listen: {(folder / f'said-{port}').read_text()[-300:]}") from None
                    time.sleep(0.01)
            yield process
        finally:
            process.terminate()
            process.wait()


class Comparison:
    """One conversion, on ports of its own."""

    def __init__(self, program, folder, counts):
        self.program, self.folder, self.counts = program, folder, counts
        folder.mkdir(parents=True, exist_ok=True)

    def count(self, what, more=1):
        self.counts[what] = self.counts.get(what, 0) + more

    def differences(self, text, choice, chance, base):
        """What differs; None where no listen comes of it."""
        words, front, back = choice
        old = Old(text)
        path = self.folder / "old.cfg"
        path.write_text(text)
        made = subprocess.run([self.program, "convert", str(path), *words], capture_output=True, text=True)
        if made.returncode == 3:
            return None
        told = told_by(made.stderr)
        copies = [self.folder / name for name in ("old-copy.cfg", "new-copy.cfg", "new-own.cfg")]
        before, port = old.rewritten(told, base, front)
        ports = [port, base + 50, base + 51]
        copies[0].write_text(before)
        copies[1].write_text(new_rewritten(made.stdout, old, back, ports[1], FIELDS))
        copies[2].write_text(new_rewritten(made.stdout, old, back, ports[2], []))
        log = self.folder / "access"
        log.unlink(missing_ok=True)
        asked = requests_of(chance)
        self.count("status 0" if made.returncode == 0 else "status 6")
        own = [self.program, "run", str(copies[2]), "--access-log", str(log), "--access-log-format", "json", "--stop-with-stdin"]
        with running(["haproxy", "-db", "-f", str(copies[0])], ports[0], self.folder), running(["haproxy", "-db", "-f", str(copies[1])], ports[1], self.folder):
            olds, news = ([[ask(port, number, *request[:3]) for _ in range(2)] for number, request in enumerate(asked)] for port in ports[:2])
        owns = self.owns(own, ports[2], asked, log)
        kept = [at for at, (row, _) in enumerate(olds) if row["backend"] == back.lower()]
        self.count("requests", 2 * len(kept))
        found = self.differing("HAProxy", asked, olds, news, kept)
        return found + self.differing("dueproxy", asked, olds, owns, [at for at in kept if asked[at][3]])

    def owns(self, words, port, asked, log):
        """What PROGRAM answers, and decided by its log."""
        with open(self.folder / f"said-{port}", "wb") as said:
            process = subprocess.Popen(words, stdin=subprocess.PIPE, stdout=said, stderr=said)
            try:
                since = time.monotonic()
                while True:
                    with contextlib.suppress(ConnectionRefusedError):
                        socket.create_connection(("127.0.0.1", port), timeout=5).close()
                        break
                    if process.poll() is not None or time.monotonic() - since > 10:
                        raise RuntimeError(f"dueproxy doesn't listen: {(self.folder / f'said-{port}').read_text()[-300:]}")
                    time.sleep(0.01)
                rows = [[ask(port, number, *request[:3]) for _ in range(2)] for number, request in enumerate(asked)]
                process.stdin.close()
                process.wait(10)
            finally:
                process.kill()
                process.wait()
        for line in log.read_text().splitlines():
            entry = json.loads(line)
            number = re.search(r"[?&]n=(\d+)", entry.get("request", entry.get("target", "")))
            if number:
                for row in rows[int(number[1])]:
                    row["class"], row["offset"] = entry["class"], entry["offset"]
        return rows

    def differing(self, name, asked, olds, others, kept):
        found = []
        for at in kept:
            for key in ("status", "class", "offset"):
                rows = [[row[key] for row in rows[at]] for rows in (olds, others)]
                if rows[0] != rows[1]:
                    found.append(f"{name}: {asked[at][:3]}: {key} {rows[0]} and {rows[1]}")
            servers = [{row["server"] for row in rows[at]} for rows in (olds, others)]
            if min(map(len, servers)) == 1:
                self.count("bound")
                if servers[0] != servers[1]:
                    found.append(f"{name}: {asked[at][:3]}: servers {servers[0]} and {servers[1]}")
        alls = [{row["server"] for at in kept for row in rows[at]} for rows in (olds, others)]
        balanced = 2 * sum(all(rows[at][0]["server"] != rows[at][1]["server"] for rows in (olds, others)) for at in kept)
        if alls[0] != alls[1] and balanced >= 2 * max(map(len, alls)):
            found.append(f"{name}: servers of all {sorted(map(str, alls[0]))} and {sorted(map(str, alls[1]))}")
        return found


class Cases:
    def __init__(self, program, folder, count, seed):
        self.program, self.folder, self.count, self.seed = program, folder, count, seed
        self.counts = {}
        self.lock = threading.Lock()
        self.free = list(range(WORKERS))

    def all(self):
        for path in filter(lambda path: pathlib.Path(path).exists(), EXAMPLES):
            yield pathlib.Path(path).stem, pathlib.Path(path).read_text(errors="replace"), random.Random(pathlib.Path(path).stem)
        made = tried = 0
        path = self.folder / "tried.cfg"
        while made < self.count and tried < 50 * self.count:
            text = Further(random.Random(self.seed * 1_000_000 + tried)).text()
            path.write_text(text)
            tried += 1
            case = f"{self.seed}-{tried}", text, random.Random(tried)
            words = random.Random(tried).choice(Old(text).choices() or [[]])[:1]
            if words and subprocess.run(["haproxy", "-c", "-f", str(path)], capture_output=True).returncode == 0:
                if subprocess.run([self.program, "convert", str(path), *words[0]], capture_output=True).returncode != 3:
                    made += 1
                    yield case

    def tried(self, case):
        """Whether all of a case is alike, or None where it isn't one."""
        name, text, chance = case
        choices = Old(text).choices()
        if not choices:
            return None
        with self.lock:
            worker = self.free.pop()
        try:
            folder = self.folder / name
            try:
                found = Comparison(self.program, folder, self.counts).differences(text, chance.choice(choices), chance, FRONTS + 100 * worker)
            except (RuntimeError, OSError, KeyError, ValueError) as error:
                found = [repr(error)]
        finally:
            with self.lock:
                self.free.append(worker)
        if found:
            print(f"FAILED  {name}: {'; '.join(found[:4])}{f'; and {len(found) - 4} more' if len(found) > 4 else ''} (kept in {folder})", flush=True)
        else:
            shutil.rmtree(folder, ignore_errors=True)
        return None if found is None else not found


def main(program, folder, count=200, seed=1):
    folder = pathlib.Path(folder)
    folder.mkdir(parents=True, exist_ok=True)
    Server()
    cases = Cases(program, folder, int(count), int(seed))
    with concurrent.futures.ThreadPoolExecutor(WORKERS) as pool:
        told = [one for one in pool.map(cases.tried, cases.all()) if one is not None]
    print(", ".join(f"{name}: {count}" for name, count in sorted(cases.counts.items())))
    print(f"{sum(told)} of {len(told)}")
    sys.exit(sum(told) != len(told) or not told)


if __name__ == "__main__":
    if not shutil.which("haproxy"):
        sys.exit("haproxy is not on the path")
    main(*sys.argv[1:5])
