#!/usr/bin/env python3
"""control.py PROGRAM FOLDER: a proxy that is steered while it serves (`run --control`, `ctl`).

Starts PROGRAM before a server of this script, and tries it on real sockets. Prints a line a case and
`N of M`, and exits with 1 where one failed."""
import collections
import json
import os
import socket
import stat
import subprocess
import sys
import threading
import time

PROGRAM, FOLDER = sys.argv[1:3]
PROXY, SERVER = 18490, 18491
os.makedirs(FOLDER, exist_ok=True)
CONTROL = os.path.join(FOLDER, "control.sock")
CASES = []
SERVED = {"now": 0, "most": 0}
LOCK = threading.Lock()
SLOW = 0.1


def case(function):
    CASES.append(function)
    return function


def serve_one(client):
    with client:
        if not client.recv(65536):
            return
        with LOCK:
            SERVED["now"] += 1
            SERVED["most"] = max(SERVED["most"], SERVED["now"])
        time.sleep(SLOW)
        with LOCK:
            SERVED["now"] -= 1
        client.sendall(b"HTTP/1.1 200 OK\r\nContent-Length: 2\r\n\r\nok")


def server():
    listener = socket.create_server(("127.0.0.1", SERVER), backlog=512)
    while True:
        client, _ = listener.accept()
        threading.Thread(target=serve_one, args=(client,), daemon=True).start()


class Proxy:
    def __init__(self, *words, limit=4, queue="30s", control=True, stdin=subprocess.DEVNULL):
        path = os.path.join(FOLDER, "control.cfg")
        with open(path, "w") as file:
            file.write(f"listen w\n bind 127.0.0.1:{PROXY}\n timeout client 10s\n timeout server 10s\n timeout connect 5s\n"
                       f" timeout queue {queue}\n server a 127.0.0.1:{SERVER} maxconn {limit}\n")
        words = (["--control", CONTROL] if control else []) + list(words)
        self.process = subprocess.Popen([PROGRAM, "run", path, *words], stdin=stdin, stdout=subprocess.PIPE, stderr=subprocess.PIPE)
        self.said = self.process.stderr.readline()
        SERVED.update(now=0, most=0)

    def __enter__(self):
        return self

    def __exit__(self, *_):
        self.process.kill()
        self.process.communicate()


def ctl(*words, timeout=20):
    done = subprocess.run([PROGRAM, "ctl", CONTROL, *words], capture_output=True, timeout=timeout)
    return done.returncode, done.stdout.decode()


class Clients:
    """So many at once; what each was told."""

    def __init__(self, count):
        self.told = collections.Counter()
        self.threads = [threading.Thread(target=self.one) for _ in range(count)]
        for thread in self.threads:
            thread.start()

    def one(self):
        data = b""
        try:
            with socket.create_connection(("127.0.0.1", PROXY)) as client:
                client.settimeout(25)
                client.sendall(b"GET / HTTP/1.1\r\nHost: h\r\n\r\n")
                while True:
                    got = client.recv(65536)
                    if not got:
                        break
                    data += got
        except OSError:
            pass
        with LOCK:
            self.told[data[9:12].decode()] += 1

    def join(self):
        for thread in self.threads:
            thread.join()
        return dict(self.told)


def until(condition, seconds=5):
    since = time.time()
    while not condition():
        assert time.time() - since < seconds, "in vain"
        time.sleep(0.01)


@case
def its_state_is_told():
    with Proxy():
        status, text = ctl("state")
        assert status == 0 and text.startswith("server a up limit 4 served 0 waiting 0\n"), text
        state = json.loads(ctl("state", "--json")[1])
        assert state["servers"][0]["limit"] == 4 and state["clients"] == 0, state


@case
def a_limit_rises_and_falls_under_load():
    with Proxy():
        clients = Clients(60)
        for limit in (1, 8, 2, 6):
            assert ctl("limit", "a", str(limit))[0] == 0
            time.sleep(0.4)
            with LOCK:
                SERVED["most"] = SERVED["now"]
            time.sleep(0.3)
            assert SERVED["most"] <= limit, (SERVED, limit)
        assert clients.join() == {"200": 60}


@case
def a_drain_is_waited_for():
    with Proxy():
        clients = Clients(4)
        until(lambda: SERVED["now"] == 4)
        status, text = ctl("drain", "a", "--wait")
        assert status == 0 and SERVED["now"] == 0 and "closed" in text, (text, SERVED)
        waiting = Clients(3)
        time.sleep(0.2)
        assert SERVED["now"] == 0
        assert ctl("ready", "a")[0] == 0
        assert clients.join() == {"200": 4} and waiting.join() == {"200": 3}


@case
def a_pause_loses_nobody():
    with Proxy("--places", "8"):
        assert ctl("pause")[0] == 0
        clients = Clients(60)
        time.sleep(0.5)
        assert SERVED["now"] == 0 and json.loads(ctl("state", "--json")[1])["waiting"] == 60
        assert ctl("resume")[0] == 0
        assert clients.join() == {"200": 60}


@case
def a_stop_under_load_answers_all():
    global SLOW
    SLOW = 0.4
    try:
        with Proxy(limit=20) as proxy:
            clients = Clients(200)
            until(lambda: json.loads(ctl("state", "--json")[1])["clients"] >= 100)
            status, _ = ctl("stop")
            out, _ = proxy.process.communicate(timeout=15)
            assert status == 0 and proxy.process.returncode == 0, (status, proxy.process.returncode)
            told = clients.join()
            assert told.get("200", 0) >= 100 and set(told) <= {"200", ""}, told
            assert b"server a up" in out and not os.path.exists(CONTROL), out
    finally:
        SLOW = 0.1


@case
def nobody_new_comes_behind_a_stop():
    with Proxy(limit=1):
        clients = Clients(5)
        until(lambda: SERVED["now"] == 1)
        stop = threading.Thread(target=lambda: ctl("stop"))
        stop.start()
        time.sleep(0.15)
        try:
            socket.create_connection(("127.0.0.1", PROXY)).close()
            raise AssertionError("it still listens")
        except ConnectionRefusedError:
            pass
        stop.join()
        assert clients.join() == {"200": 5}


@case
def a_stop_has_its_time():
    with Proxy(limit=1) as proxy:
        clients = Clients(60)
        until(lambda: SERVED["now"] == 1)
        time.sleep(0.3)
        since = time.time()
        assert ctl("stop", "--within", "500")[0] == 0
        assert time.time() - since < 2.5
        told = clients.join()
        assert told.get("503", 0) > 30 and told.get("200", 0) >= 4, told
        assert proxy.process.wait(5) == 0


@case
def a_later_stop_makes_its_time_no_longer():
    global SLOW
    SLOW = 6
    try:
        with Proxy(limit=1) as proxy:
            clients = Clients(3)
            until(lambda: SERVED["now"] == 1)
            stops = [threading.Thread(target=lambda words=words: ctl("stop", *words)) for words in (["--within", "500"], ["--within", "60000"], [])]
            for stop in stops:
                stop.start()
                time.sleep(0.1)
            assert proxy.process.wait(4) == 0
            for stop in stops:
                stop.join()
            assert clients.join().get("503") == 2
    finally:
        SLOW = 0.1


@case
def times_outside_begin_with_the_coming():
    """Also where nobody waited for longer than the time."""
    global SLOW
    SLOW = 3
    try:
        with Proxy("--places", "1", limit=1, queue="1s"):
            time.sleep(1.5)
            clients = Clients(3)
            time.sleep(0.7)
            assert not clients.told, clients.told
            assert clients.join() == {"200": 1, "503": 2}
    finally:
        SLOW = 0.1


@case
def bad_words_change_nothing():
    with Proxy():
        before = ctl("state")[1]
        for words in (("limit", "a", "x"), ("limit", "b", "1"), ("nothing",), ("drain",), ("stop", "now")):
            status, text = ctl(*words)
            assert status == 1 and text.startswith("error:"), (words, text)
        assert ctl("state")[1] == before


@case
def the_words_of_haproxy_are_understood():
    with Proxy():
        assert ctl("set", "maxconn", "server", "w/a", "7")[0] == 0
        assert json.loads(ctl("state", "--json")[1])["servers"][0]["limit"] == 7
        assert ctl("set", "server", "w/a", "state", "drain")[0] == 0
        assert json.loads(ctl("state", "--json")[1])["servers"][0]["limit"] is None
        assert ctl("show", "stat")[0] == 0


@case
def half_a_line_and_silence():
    with Proxy():
        with socket.socket(socket.AF_UNIX) as client:
            client.connect(CONTROL)
            client.sendall(b"sta")
            assert ctl("state")[0] == 0 and Clients(8).join() == {"200": 8}


@case
def a_hundred_control_clients():
    with Proxy():
        told = []
        threads = [threading.Thread(target=lambda: told.append(ctl("clients")[0])) for _ in range(100)]
        for thread in threads:
            thread.start()
        assert Clients(20).join() == {"200": 20}
        for thread in threads:
            thread.join()
        assert told == [0] * 100, told


def raw(data):
    """What is answered to these bytes, as far as it comes."""
    got = b""
    with socket.socket(socket.AF_UNIX) as client:
        client.settimeout(10)
        client.connect(CONTROL)
        try:
            client.sendall(data)
            client.shutdown(socket.SHUT_WR)
        except BrokenPipeError:
            pass  # it was closed, and what it was told before that is there
        try:
            while more := client.recv(65536):
                got += more
        except ConnectionResetError:
            pass
    return got


@case
def what_is_no_command_changes_nothing():
    """Bytes that are no words, lines without an end, and clients that leave amid their answers."""
    with Proxy():
        before = ctl("state")[1]
        for data in (b"\0\0\n", b"limit a\0 3\n", b"limit \xff\xfe 3\n", b"limit a 99999999999999999999\n", b"limit a -1\n", b"\n", b"x" * (1 << 20),
                     b"x" * (1 << 20) + b"\n"):
            told = raw(data)
            assert told.startswith(b"error:") and told.count(b"error:") == 1, (data[:20], told)
        assert raw(b"") == b"" and raw(b"sta") == b""
        assert raw(b"clients\n" * 10000).count(b"clients ") == 10000
        for _ in range(50):
            with socket.socket(socket.AF_UNIX) as client:
                client.connect(CONTROL)
                client.sendall(b"help\nstate --json\n" * 50)
        silent = []
        for _ in range(8):
            client = socket.socket(socket.AF_UNIX)
            client.connect(CONTROL)
            client.setblocking(False)
            try:
                for _ in range(200):
                    client.send(b"state --json\n" * 1000)
            except BlockingIOError:
                pass
            silent.append(client)
        assert ctl("state")[1] == before and Clients(8).join() == {"200": 8}
        for client in silent:
            client.close()


@case
def reports_are_certified_meanwhile():
    with Proxy(limit=1):
        Clients(3).join()
        status, text = ctl("reports")
        assert status == 0 and "queue * class 0 granted 2" in text, text


@case
def the_end_of_standard_input_stops_it():
    with Proxy("--stop-with-stdin", control=False, stdin=subprocess.PIPE) as proxy:
        clients = Clients(8)
        until(lambda: SERVED["now"] == 4)
        proxy.process.stdin.close()
        proxy.process.stdin = None
        assert clients.join() == {"200": 8} and proxy.process.wait(5) == 0


@case
def the_socket_is_its_users():
    with Proxy():
        assert stat.S_IMODE(os.stat(CONTROL).st_mode) == 0o600


@case
def a_dead_socket_is_replaced():
    if os.path.exists(CONTROL):
        os.remove(CONTROL)
    with socket.socket(socket.AF_UNIX) as dead:
        dead.bind(CONTROL)
    with Proxy():
        assert ctl("state")[0] == 0


@case
def another_file_is_refused():
    if os.path.exists(CONTROL):
        os.remove(CONTROL)
    with open(CONTROL, "w") as file:
        file.write("mine")
    with Proxy() as proxy:
        assert proxy.process.wait(5) == 1 and b"read fault" in proxy.said, proxy.said
    with open(CONTROL) as file:
        assert file.read() == "mine"
    os.remove(CONTROL)


@case
def a_second_proxy_is_refused():
    with Proxy():
        other = subprocess.run([PROGRAM, "run", os.path.join(FOLDER, "control.cfg"), "--control", CONTROL], capture_output=True, timeout=5)
        assert other.returncode == 1 and b"another process listens there" in other.stderr, other.stderr
        assert ctl("state")[0] == 0


def main():
    threading.Thread(target=server, daemon=True).start()
    good = 0
    for function in CASES:
        try:
            function()
            good += 1
            print("ok     ", function.__name__, flush=True)
        except Exception as error:
            print("FAILED ", function.__name__, repr(error)[:300], flush=True)
    print(f"{good} of {len(CASES)}")
    sys.exit(good != len(CASES))


main()
