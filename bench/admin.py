#!/usr/bin/env python3
"""admin.py PROGRAM FOLDER [REQUESTS]: a proxy that is asked how it goes (`run --admin`).

Starts PROGRAM before servers of this script, and compares what it says of itself with what went over real sockets, with its
access log and with its reports, after REQUESTS requests; then clients of the admin address that send or take nothing, or come
in hundreds, while it serves. Prints a line a case and `N of M`, and exits with 1 where one failed."""
import collections
import json
import os
import re
import resource
import shutil
import socket
import struct
import subprocess
import sys
import threading
import time

PROGRAM, FOLDER = sys.argv[1:3]
REQUESTS = int(sys.argv[3]) if len(sys.argv) > 3 else 20000
PROXY, SERVER, OTHER, DEAD, ADMIN = 18580, 18581, 18582, 18583, 18584
os.makedirs(FOLDER, exist_ok=True)
LOG = os.path.join(FOLDER, "admin.log")
CASES = []


def case(function):
    CASES.append(function)
    return function


def equal(got, wanted, what=""):
    assert got == wanted, f"{what}: {got!r} and not {wanted!r}"


def answer_one(client):
    """Answers one request: /slow after a while, /slowest after a longer one, /none with 404."""
    with client:
        held = b""
        while b"\r\n\r\n" not in held:
            more = client.recv(65536)
            if not more:
                return
            held += more
        target = held.split(b" ")[1]
        if target.startswith(b"/slow"):
            time.sleep(1.5 if target.startswith(b"/slowest") else 0.5)
        status = b"404 Not Found" if target.startswith(b"/none") else b"200 OK"
        client.sendall(b"HTTP/1.1 " + status + b"\r\nContent-Length: 2\r\nConnection: close\r\n\r\nok")


def serve(port):
    listener = socket.create_server(("127.0.0.1", port), backlog=1024)
    while True:
        client, _ = listener.accept()
        threading.Thread(target=answer_one, args=(client,), daemon=True).start()


class Proxy:
    def __init__(self, *words, lines="", servers=None, log=True, admin=f"127.0.0.1:{ADMIN}"):
        path = os.path.join(FOLDER, "admin.cfg")
        servers = servers or [f"server a 127.0.0.1:{SERVER} maxconn 2", f"server b 127.0.0.1:{OTHER} maxconn 2"]
        with open(path, "w") as file:
            file.write(f"listen w\n bind 127.0.0.1:{PROXY}\n timeout client 5s\n timeout server 5s\n timeout connect 1s\n"
                       f" timeout queue 30s\n{lines}" + "".join(f" {server}\n" for server in servers))
        if os.path.exists(LOG):
            os.remove(LOG)
        logs = ["--access-log", LOG, "--access-log-format", "json"] if log else []
        asked = ["--admin", admin] if admin else []
        self.process = subprocess.Popen([PROGRAM, "run", path, "--stop-with-stdin", *logs, *asked, *words],
                                        stdin=subprocess.PIPE, stdout=subprocess.PIPE, stderr=subprocess.PIPE)
        self.said = [self.process.stderr.readline()]
        if admin:
            self.said.append(self.process.stderr.readline())

    def __enter__(self):
        return self

    def __exit__(self, *_):
        if self.process.poll() is None:
            self.process.kill()
        self.process.communicate()

    def stop(self):
        """Ends it in an orderly way: its status and its standard output."""
        self.process.stdin.close()
        self.process.stdin = None
        out, _ = self.process.communicate(timeout=60)
        return self.process.returncode, out.decode()


def take_all(client):
    got = b""
    while True:
        try:
            more = client.recv(65536)
        except OSError:
            return got
        if not more:
            return got
        got += more


def ask(target="/", port=PROXY, method=b"GET", timeout=20):
    """One request on a connection of its own: the status, the head and the body."""
    with socket.create_connection(("127.0.0.1", port), timeout=timeout) as client:
        client.sendall(method + b" " + target.encode() + b" HTTP/1.1\r\nHost: h\r\n\r\n")
        head, _, body = take_all(client).partition(b"\r\n\r\n")
    return (int(head.split(b" ")[1]) if head else 0), head.decode(), body


def look(target):
    status, _, body = ask(target, ADMIN)
    equal(status, 200, target)
    return body.decode()


SAMPLE = re.compile(r'(\w+)(?:\{(.*)\})? (\S+)$')


def metrics():
    """The samples: a name and its labels, and the value."""
    samples = {}
    for line in look("/metrics").splitlines():
        if not line.startswith("#"):
            name, labels, value = SAMPLE.match(line).groups()
            named = tuple(sorted(re.findall(r'(\w+)="((?:[^"\\]|\\.)*)"', labels or "")))
            assert (name, named) not in samples, line
            samples[name, named] = float(value)
    return samples


def of(samples, name, **labels):
    """The sum of the samples of a name with these labels."""
    return sum(value for (its, named), value in samples.items() if its == name and labels.items() <= dict(named).items())


def settled(count):
    """The samples once so many requests are counted."""
    for _ in range(100):
        samples = metrics()
        if of(samples, "dueproxy_requests_total") == count:
            return samples
        time.sleep(0.12)
    raise AssertionError(f"{of(samples, 'dueproxy_requests_total')} of {count} requests were counted")


def in_threads(count, function, *args):
    threads = [threading.Thread(target=function, args=args, daemon=True) for _ in range(count)]
    for thread in threads:
        thread.start()
    return threads


def join(threads):
    for thread in threads:
        thread.join()


@case
def without_its_word_nothing_listens():
    with Proxy(admin=None, log=False):
        try:
            socket.create_connection(("127.0.0.1", ADMIN), timeout=1).close()
        except OSError:
            return
        raise AssertionError("something listens")


@case
def only_a_loopback_address():
    def said(*words):
        done = subprocess.run([PROGRAM, "run", os.path.join(FOLDER, "admin.cfg"), *words], capture_output=True, timeout=20)
        return done.returncode, done.stderr.decode()
    for address in ("0.0.0.0:8404", "192.0.2.1:8404", "[::]:8404"):
        status, text = said("--admin", address)
        assert status == 2 and "--admin-open" in text, (address, status, text)
    for address in ("8404", "localhost:8404", "127.0.0.1", "127.0.0.1:84040"):
        status, text = said("--admin", address)
        assert status == 2 and "IP:PORT" in text, (address, status, text)
    equal(said("--admin-open")[0], 2)
    with Proxy("--admin-open", admin=f"0.0.0.0:{ADMIN}") as proxy:
        equal(proxy.said[1].decode(), f"admin at http://0.0.0.0:{ADMIN}/\n")
        equal(look("/health"), "ok\n")
        status, text = said("--admin", f"127.0.0.1:{ADMIN}")
        assert status == 1 and "in use" in text, (status, text)


@case
def each_path_and_method():
    with Proxy(log=False):
        status, head, body = ask("/", ADMIN)
        assert status == 200 and "text/html" in head and "default-src 'none'" in head, head
        assert not re.search(rb"(src|href)\s*=|https?:|@import|url\(", body), "it loads something"
        equal(ask("/", ADMIN, b"HEAD")[2], b"")
        equal([ask(target, ADMIN)[0] for target in ("/state.json?x", "/nothing", "/metrics/")], [200, 404, 404])
        equal(ask("/metrics", ADMIN, b"POST")[0], 405)
        for bad in (b"\x16\x03\x01\x00\r\n\r\n", b"GET / HTTP/9\r\n\r\n", b"GET /\x00 HTTP/1.1\r\n\r\n"):
            with socket.create_connection(("127.0.0.1", ADMIN), timeout=5) as client:
                client.sendall(bad)
                equal(take_all(client)[:12], b"HTTP/1.1 400", bad)
        with socket.create_connection(("127.0.0.1", ADMIN), timeout=5) as client:
            client.sendall(b"GET / HTTP/1.1\r\nX: " + b"x" * 9000)
            equal(take_all(client)[:12], b"HTTP/1.1 431")


@case
def open_descriptors():
    with Proxy(log=False) as proxy:
        def listed():
            time.sleep(0.3)
            return len(os.listdir(f"/proc/{proxy.process.pid}/fd"))
        counts = []
        for clients in (0, 300):
            held = [socket.create_connection(("127.0.0.1", PROXY)) for _ in range(clients)]
            opened = listed()
            samples = metrics()
            # The connection that asks is open while the text is made.
            equal(of(samples, "process_open_fds"), opened + 1, f"with {clients} clients")
            equal(of(samples, "process_max_fds"), resource.getrlimit(resource.RLIMIT_NOFILE)[0])
            counts.append(opened)
            for client in held:
                client.close()
        assert 300 <= counts[1] - counts[0] <= 302, counts


@case
def promtool_has_nothing_to_say():
    if not shutil.which("promtool"):
        return "no promtool here"
    with Proxy():
        for count in (0, 20):
            for _ in range(count):
                ask("/none")
            time.sleep(0.15)
            done = subprocess.run(["promtool", "check", "metrics"], input=look("/metrics"), capture_output=True, text=True)
            equal((done.returncode, done.stdout, done.stderr), (0, "", ""))
    return None


@case
def a_queue_is_shown_in_its_order():
    rules = " http-request set-priority-class int(1) if { path /slow1 }\n http-request set-priority-offset int(5000) if { path /slow2 }\n"
    with Proxy(lines=rules, servers=[f"server a 127.0.0.1:{SERVER} maxconn 1"]):
        threads = []
        for target in ("/slow", "/slow1", "/slow2", "/slow"):
            threads += in_threads(1, ask, target)
            time.sleep(0.05)
        time.sleep(0.1)
        state = json.loads(look("/state.json"))
        queue = state["queues"][0]
        equal((queue["name"], queue["waiting"], [one["ticket"] for one in queue["next"]]), ("*", 3, [4, 3, 2]))
        equal([one["class"] for one in queue["next"]], [0, 0, 1])
        assert 4700 < queue["next"][1]["due"] - state["moment"] < 5000, queue
        equal((state["live"], state["servers"][0]["served"], state["servers"][0]["limit"]), (4, 1, 1))
        samples = metrics()
        equal((of(samples, "dueproxy_queue_waiting", queue="*", **{"class": "0"}), of(samples, "dueproxy_queue_waiting", queue="*", **{"class": "1"})), (2, 1))
        equal((of(samples, "dueproxy_places_in_use"), of(samples, "dueproxy_server_served", server="a")), (4, 1))
        join(threads)
        samples = settled(4)
        equal((of(samples, "dueproxy_queue_waiting"), of(samples, "dueproxy_places_in_use")), (0, 0))
        minute = {told["class"]: told for told in json.loads(look("/state.json"))["minute"]}
        equal((minute[0]["slots"], minute[1]["slots"], minute[1]["late"]), (3, 1, 1))
        assert 1200 < minute[1]["worst"] < 2500, minute


@case
def servers_that_fail_and_requests_that_are_refused():
    servers = [f"server a 127.0.0.1:{SERVER} maxconn 1", f"server d 127.0.0.1:{DEAD} check inter 100ms fall 2 rise 2"]
    lines = " retries 1\n timeout queue 100ms\n use-server d if { path /dead }\n use-server a unless { path /dead }\n"
    with Proxy(servers=servers, lines=lines):
        equal(ask("/dead")[0], 503)
        threads = in_threads(1, ask, "/slow")
        time.sleep(0.1)
        equal(ask("/late")[0], 503)
        join(threads)
        with socket.create_connection(("127.0.0.1", PROXY)) as client:
            client.sendall(b"no request\r\n\r\n")
            take_all(client)
        samples = settled(4)
        state = json.loads(look("/state.json"))
        equal([server["up"] for server in state["servers"]], [True, False])
        equal([of(samples, "dueproxy_server_up", server=server) for server in "ad"], [1, 0])
        told = [of(samples, "dueproxy_refusals_total", cause=cause) for cause in ("timeout", "retries", "nohead", "aborted")]
        equal(told[0] + told[1] + of(samples, "dueproxy_refusals_total", cause="noserver"), 2)
        equal((told[0], told[2], told[3]), (1, 1, 0))
        equal(of(samples, "dueproxy_requests_total", status="503"), 2)
        equal(of(samples, "dueproxy_requests_total", status="400", server="<NOSRV>"), 1)


@case
def who_waits_outside_is_counted():
    """One that waited outside for its place times out at it: a timeout, and no abort."""
    with Proxy("--places", "2", lines=" timeout queue 800ms\n", servers=[f"server a 127.0.0.1:{SERVER} maxconn 1"]):
        threads = in_threads(1, ask, "/slowest")
        time.sleep(0.1)
        waits = socket.create_connection(("127.0.0.1", PROXY))
        waits.sendall(b"GET /waits HTTP/1.1\r\nHost: h\r\n\r\n")
        time.sleep(0.1)
        told = []
        outside = threading.Thread(target=lambda: told.append(ask("/outside")[0]))
        outside.start()
        time.sleep(0.2)
        samples = metrics()
        equal((of(samples, "dueproxy_outside_waiting"), of(samples, "dueproxy_places_in_use")), (1, 2))
        equal(json.loads(look("/state.json"))["outside"], 1)
        waits.setsockopt(socket.SOL_SOCKET, socket.SO_LINGER, struct.pack("ii", 1, 0))
        waits.close()
        outside.join()
        join(threads)
        samples = settled(3)
        equal((told, of(samples, "dueproxy_outside_waiting")), ([503], 0))
        equal([of(samples, "dueproxy_refusals_total", cause=cause) for cause in ("timeout", "aborted", "unplaced")], [1, 1, 0])


@case
def limits_and_the_end_are_told():
    control = os.path.join(FOLDER, "admin.sock")
    with Proxy("--control", control) as proxy:
        subprocess.run([PROGRAM, "ctl", control, "drain", "a"], check=True, capture_output=True, timeout=20)
        subprocess.run([PROGRAM, "ctl", control, "limit", "b", "0"], check=True, capture_output=True, timeout=20)
        time.sleep(0.15)
        samples = metrics()
        equal([of(samples, "dueproxy_server_limit", server=server) for server in "ab"], [0, float("inf")])
        equal([server["limit"] for server in json.loads(look("/state.json"))["servers"]], [None, 0])
        threads = in_threads(1, ask, "/slow")
        time.sleep(0.1)
        ended = subprocess.Popen([PROGRAM, "ctl", control, "stop"], stdout=subprocess.DEVNULL)
        time.sleep(0.1)
        status, _, body = ask("/health", ADMIN)
        equal((status, body), (503, b"stopping\n"))
        join(threads)
        equal((ended.wait(20), proxy.process.wait(20)), (0, 0))


def soak_client(rounds, codes):
    for number in range(rounds):
        codes[ask(f"/{('a', 'late', 'low', 'none')[number % 4]}")[0]] += 1


def lines_of_log():
    with open(LOG) as file:
        return [json.loads(line) for line in file]


def grants_of(out):
    """What the reports and the servers' lines at the end say: grants by class, and slots by server and way."""
    granted, slots = collections.Counter(), {}
    for line in out.splitlines():
        words = line.split()
        if words[0] == "queue":
            granted[words[3]] += int(words[5])
        elif words[0] == "server":
            slots[words[1]] = (int(words[4]), int(words[6]))
    return granted, slots


@case
def the_sums_of_a_soak_agree():
    lines = " http-request set-priority-class int(1) if { path /low }\n http-request set-priority-offset int(20) if { path /late }\n"
    with Proxy(lines=lines) as proxy:
        codes = [collections.Counter() for _ in range(16)]
        threads = [threading.Thread(target=soak_client, args=(REQUESTS // 16, told)) for told in codes]
        for thread in threads:
            thread.start()
        while any(thread.is_alive() for thread in threads):
            samples = metrics()
            assert of(samples, "dueproxy_places_in_use") <= 17, samples
            time.sleep(0.2)
        join(threads)
        count = REQUESTS // 16 * 16
        samples = settled(count)
        status, out = proxy.stop()
        equal(status, 0)
    told = lines_of_log()
    granted, slots = grants_of(out)
    equal(len(told), count)
    for code, times in sum(codes, collections.Counter()).items():
        equal(of(samples, "dueproxy_requests_total", status=str(code)), times, code)
    wanted = collections.Counter((line["server"], str(line["status"])) for line in told)
    counted = {(dict(named)["server"], dict(named)["status"]): value
               for (name, named), value in samples.items() if name == "dueproxy_requests_total"}
    equal(counted, dict(wanted))
    equal((of(samples, "dueproxy_received_bytes_total"), of(samples, "dueproxy_sent_bytes_total")),
          (sum(line["received"] for line in told), sum(line["sent"] for line in told)))
    for server, (direct, after) in slots.items():
        got = [of(samples, "dueproxy_slots_total", server=server, way=way) for way in ("direct", "granted")]
        equal(got, [direct, after], server)
    for number in ("0", "1"):
        mine = [line for line in told if str(line["class"]) == number]
        for name, field in (("wait", "waited"), ("lateness", "late")):
            check_histogram(samples, f"dueproxy_{name}_seconds", number, [line[field] for line in mine])
        equal(sum(not line["direct"] for line in mine), granted[number], f"grants of class {number}")
    equal(of(samples, "dueproxy_left_out_total"), 0)


def check_histogram(samples, name, number, values):
    equal(of(samples, name + "_count", **{"class": number}), len(values), name)
    assert abs(of(samples, name + "_sum", **{"class": number}) * 1000 - sum(values)) < 0.5, name
    for (its, named), value in samples.items():
        labels = dict(named)
        if its == name + "_bucket" and labels["class"] == number:
            equal(value, sum(one <= float(labels["le"]) * 1000 + 1e-6 for one in values), f"{name} {labels}")


@case
def hostile_clients_hold_nothing_up():
    with Proxy() as proxy:
        before = time.time()
        for _ in range(50):
            equal(ask()[0], 200)
        alone = time.time() - before
        held = []
        for number in range(100):
            client = socket.create_connection(("127.0.0.1", ADMIN), timeout=20)
            held.append(client)
            if number % 3 == 0:
                client.sendall(b"GET /metrics HTTP/1.1\r\nHo")
            elif number % 3 == 1:
                client.setsockopt(socket.SOL_SOCKET, socket.SO_RCVBUF, 1024)
                client.sendall(b"GET / HTTP/1.1\r\n\r\n" * 20)
        before = time.time()
        for _ in range(50):
            equal(ask()[0], 200)
        beside = time.time() - before
        assert beside < max(1.0, 5 * alone), (alone, beside)
        before = time.time()
        equal(ask("/health", ADMIN, timeout=30)[0], 200, "health behind all of them")
        assert time.time() - before < 20, time.time() - before
        for client in held:
            client.close()
        stopping = threading.Event()
        threads = in_threads(8, hammer, stopping)
        before = time.time()
        for _ in range(200):
            equal(ask()[0], 200)
        stopping.set()
        join(threads)
        equal(proxy.stop()[0], 0)
    equal(len(lines_of_log()), 300, "lines of the access log")


def hammer(stopping):
    """Asks without a pause."""
    while not stopping.is_set():
        try:
            ask("/metrics", ADMIN)
        except OSError:
            pass


@case
def it_ends_while_somebody_looks():
    with Proxy() as proxy:
        held = socket.create_connection(("127.0.0.1", ADMIN), timeout=5)
        held.sendall(b"GET /")
        time.sleep(0.1)
        before = time.time()
        equal(proxy.stop()[0], 0)
        assert time.time() - before < 2, time.time() - before
        held.close()


def main():
    for port in (SERVER, OTHER):
        threading.Thread(target=serve, args=(port,), daemon=True).start()
    time.sleep(0.2)
    good = 0
    only = os.environ.get("ONLY")
    cases = [function for function in CASES if not only or only in function.__name__]
    for function in cases:
        try:
            told = function()
            print(f"{function.__name__.replace('_', ' ')}: {told or 'ok'}", flush=True)
            good += 1
        except Exception as failure:  # pylint: disable=broad-except
            print(f"{function.__name__.replace('_', ' ')}: {type(failure).__name__} {failure}", flush=True)
    print(f"{good} of {len(cases)}")
    sys.exit(good != len(cases))


main()
