#!/usr/bin/env python3
"""What `dueproxy convert` writes is taken: by `dueproxy check`, and by HAProxy where no comment stands for a rule; of 200 pseudo-random
configurations that HAProxy takes, and of the examples of Debian's package where they are there. It needs `haproxy` on the path. The last
line is how many of how many are as they should be; the status is 1 where one isn't. A number as a word is another seed.

    python3 bench/convert.py"""
import glob
import pathlib
import random
import re
import shutil
import subprocess
import sys
import tempfile

sys.dont_write_bytecode = True
from words import find_program

COUNT = 200
EXAMPLES = ["/etc/haproxy/haproxy.cfg", *sorted(glob.glob("/usr/share/doc/haproxy/examples/*.cfg"))]
RULE = re.compile(r"^\s*#\s*(acl|http-request|use-server|use_backend|http-response|redirect|tcp-request)\b", re.M)


class Wish:
    """A configuration of HAProxy, made by chance."""

    def __init__(self, chance):
        self.chance = chance
        self.port = 20000
        # Every other one has only rules and tests that the profile has too.
        self.plain = chance.random() < 0.5

    def some(self, lines, share=0.3):
        return [line for line in lines if self.chance.random() < share]

    def text(self):
        parts = [self.overall(), self.defaults()]
        for at in range(self.chance.choice([1, 1, 1, 2, 3])):
            parts.append(self.listen(at) if self.chance.random() < 0.3 else self.pair(at))
        return "\n".join(line for part in parts for line in part) + "\n"

    def overall(self):
        lines = ["daemon", "maxconn 2000", "log 127.0.0.1 local0", "nbthread 2", "stats timeout 30s", "tune.bufsize 16384"]
        return ["global"] + [f"    {line}" for line in self.some(lines)]

    def defaults(self):
        lines = ["log global", "option httplog", "option dontlognull", "option redispatch", "option abortonclose", "option forwardfor",
                 "option http-server-close", "retries 2", "timeout queue 5s", "balance leastconn", "balance roundrobin", "maxconn 500",
                 "default-server inter 2s fall 2 rise 3", "default-server maxconn 7 weight 5", "timeout http-request 5s", "option httpclose"]
        always = ["mode http", "timeout connect 1s", "timeout client 10s", "timeout server 1m"]
        return ["defaults"] + [f"    {line}" for line in always + self.some(lines, 0.2)]

    def pair(self, at):
        back = [f"back{at}"] + ([f"other{at}"] if not self.plain and self.chance.random() < 0.4 else [])
        tests = self.tests()
        rules = self.rules(tests) + [f"use_backend {name} if {self.condition(tests)}" for name in back[1:] if tests]
        front = [f"frontend front{at}", *self.bind(), *tests, *rules, f"default_backend {back[0]}"]
        lines = self.section(front)
        for name in back:
            lines += self.section([f"backend {name}", *self.values(), *self.servers()])
        return lines

    def listen(self, at):
        tests = self.tests()
        return self.section([f"listen list{at}", *self.bind(), *self.values(), *tests, *self.rules(tests), *self.servers()])

    def section(self, lines):
        return [lines[0]] + [f"    {line}" for line in lines[1:]]

    def bind(self):
        for _ in range(self.chance.choice([1, 1, 1, 2])):
            self.port += 1
            host = self.chance.choice(["127.0.0.1", "*", ""])
            yield f"bind {host}:{self.port}{self.chance.choice(['', '', '', ' name it', ' backlog 64', ' defer-accept'])}"

    def values(self):
        lines = ["balance leastconn", "balance source", "balance uri", "option httpchk GET /up", "cookie SRV insert", "fullconn 100",
                 "timeout server 20s", "timeout check 2s", "option redispatch 1", "retries 5", "http-response set-header x y",
                 "no option redispatch", "stick-table type ip size 1k", "hash-type consistent", "option tcp-check"]
        if self.plain:
            lines = [line for line in lines if not line.startswith("http-response")]
        return self.some(lines, 0.15)

    def servers(self):
        for at in range(self.chance.choice([1, 2, 2, 3, 8])):
            words = self.some(["check", "maxconn 4", "maxqueue 9", "weight 20", "inter 3s", "rise 2", "fall 4", "cookie c%d" % at,
                               "backup", "slowstart 10s", "on-marked-down shutdown-sessions"], 0.2)
            words += self.some(["send-proxy", "disabled"], 0.04)
            yield " ".join([f"server s{at} 127.0.0.1:{9000 + at}", *words])

    def tests(self):
        rows = ["acl one path_beg /a /b", "acl one path_end .png", "acl two method POST", "acl three hdr(host) -i a.test b.test",
                "acl six path /", "acl eight hdr(x-kind) slow"]
        if not self.plain:
            rows += ["acl four src 10.0.0.0/8", "acl five path_reg ^/x", "acl seven hdr_beg(user-agent) bot", "acl nine url_param(a) b"]
        return self.some(rows, 0.3)

    def rules(self, tests):
        if not tests:
            return self.some(["http-request set-priority-class int(3)", "http-request set-priority-offset req.hdr_val(x-due)"])
        rows = [f"http-request set-priority-class int(-5) if {self.condition(tests)}",
                f"http-request set-priority-offset req.hdr_val(x-due) unless {self.condition(tests)}",
                f"http-request set-priority-offset int(40) if {self.condition(tests)}",
                "http-request set-priority-class int(9) if { path_beg /z }"]
        if not self.plain:
            rows += [f"http-request deny if {self.condition(tests)}", f"http-request set-header x-a b if {self.condition(tests)}",
                     f"http-request redirect location / if {self.condition(tests)}"]
        return self.some(rows, 0.3)

    def condition(self, tests):
        names = [line.split()[1] for line in tests]
        words = [self.chance.choice(["", "", "!"]) + self.chance.choice(names) for _ in range(self.chance.choice([1, 1, 2, 3]))]
        return self.chance.choice([" ", " or ", " || "]).join(words)


class Tried:
    """Both programs, on files of a folder."""

    def __init__(self, folder):
        self.folder = folder
        self.program = find_program(folder)
        self.counts = {}

    def written(self, name, text):
        path = self.folder / name
        path.write_bytes(text)
        return str(path)

    def is_haproxys(self, path):
        return subprocess.run(["haproxy", "-c", "-f", path], capture_output=True).returncode == 0

    def wrong_with(self, path):
        """What is wrong with the conversion of a file; None where nothing is."""
        made = subprocess.run([self.program, "convert", path], capture_output=True)
        changes = made.stderr.decode()
        self.counts[made.returncode] = self.counts.get(made.returncode, 0) + 1
        if made.returncode == 3:
            return None if not made.stdout and changes.startswith("no listen comes of it") else f"status 3 with {changes!r}"
        if made.returncode != (6 if changes else 0):
            return f"status {made.returncode} with {changes!r}"
        new = self.written("new.cfg", made.stdout)
        checked = subprocess.run([self.program, "check", new], capture_output=True).stdout.decode()
        if not checked.startswith("ok servers "):
            return f"check says {checked!r}"
        if not RULE.search(made.stdout.decode()):
            self.counts["read by HAProxy"] = self.counts.get("read by HAProxy", 0) + 1
            if not self.is_haproxys(new):
                return "haproxy -c doesn't take it"
        return None

    def tell(self, name, path, wrong):
        if wrong:
            kept = pathlib.Path(tempfile.gettempdir()) / f"convert-{name}.cfg"
            shutil.copyfile(path, kept)
            print(f"{name}: {wrong} (kept as {kept})")
        return not wrong


def main(seed):
    with tempfile.TemporaryDirectory() as folder:
        tried = Tried(pathlib.Path(folder))
        right = total = 0
        for path in filter(lambda path: pathlib.Path(path).exists(), EXAMPLES):
            total += 1
            right += tried.tell(pathlib.Path(path).stem, path, tried.wrong_with(path))
        made = made_up = 0
        while made < COUNT and made_up < 50 * COUNT:
            path = tried.written("old.cfg", Wish(random.Random(seed * 1_000_000 + made_up)).text().encode())
            made_up += 1
            if tried.is_haproxys(path):
                made += 1
                total += 1
                right += tried.tell(f"{seed}-{made_up}", path, tried.wrong_with(path))
        print(", ".join(f"{name if isinstance(name, str) else f'status {name}'}: {count}" for name, count in sorted(tried.counts.items(), key=str)))
        print(f"{right} of {total}")
        return right != total or made < COUNT


if __name__ == "__main__":
    if not shutil.which("haproxy"):
        sys.exit("haproxy is not on the path")
    sys.exit(main(int(sys.argv[1]) if len(sys.argv) > 1 else 1))
