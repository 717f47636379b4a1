#!/usr/bin/env python3
"""limits.py COMMAND..: two servers that count how many requests they have at once, a proxy that the command starts, and 100 clients; bench/limits.sh calls it."""
import asyncio
import random
import socket
import subprocess
import sys
import time

REQUESTS, CLIENTS, SERVICE = 20000, 100, 0.001
PROXY, FIRST, SECOND = 18090, 18091, 18092


class Counting:
    """A server that answers after a millisecond, and knows the greatest number of requests that it had at once."""

    def __init__(self, port):
        self.port, self.now, self.most, self.server, self.served = port, 0, 0, None, 0

    async def serve(self, reader, writer):
        try:
            head = await reader.readuntil(b"\r\n\r\n")
        except (asyncio.IncompleteReadError, ConnectionError):
            writer.close()
            return
        if head:
            self.now += 1
            self.most = max(self.most, self.now)
            await asyncio.sleep(SERVICE)
            self.now -= 1
            self.served += 1
            writer.write(b"HTTP/1.1 200 OK\r\nContent-Length: 2\r\nConnection: close\r\n\r\nok")
        writer.close()

    async def up(self):
        self.server = await asyncio.start_server(self.serve, "127.0.0.1", self.port, backlog=1024)

    async def down(self):
        self.server.close()


async def falls(server, ended):
    """A server that goes down and comes up, until all is over."""
    while not ended.is_set():
        await asyncio.sleep(0.4 + random.random() * 0.4)
        await server.down()
        await asyncio.sleep(0.3)
        await server.up()


async def client(left, answers):
    while left:
        left.pop()
        try:
            reader, writer = await asyncio.open_connection("127.0.0.1", PROXY)
            writer.write(b"GET / HTTP/1.1\r\nHost: h\r\n\r\n")
            answer = await reader.read()
            answers[answer[9:12]] = answers.get(answer[9:12], 0) + 1
            writer.close()
        except OSError:
            answers[b"none"] = answers.get(b"none", 0) + 1


async def measure(command):
    servers = [Counting(FIRST), Counting(SECOND)]
    for server in servers:
        await server.up()
    proxy = subprocess.Popen(command, stdout=subprocess.DEVNULL, stderr=subprocess.DEVNULL)
    for _ in range(100):
        try:
            socket.create_connection(("127.0.0.1", PROXY)).close()
            break
        except OSError:
            await asyncio.sleep(0.1)
    ended, answers, left = asyncio.Event(), {}, [None] * REQUESTS
    falling = asyncio.create_task(falls(servers[1], ended))
    start = time.time()
    await asyncio.gather(*(client(left, answers) for _ in range(CLIENTS)))
    seconds = time.time() - start
    ended.set()
    await falling
    proxy.terminate()
    proxy.wait()
    told = " ".join(f"{key.decode() or 'cut'}: {count}" for key, count in sorted(answers.items()))
    print(f"limits 4 and 2, greatest number at once {servers[0].most} and {servers[1].most}; {seconds:.1f} s, answers {told}")
    return servers[0].most <= 4 and servers[1].most <= 2


sys.exit(0 if asyncio.run(measure(sys.argv[1:])) else 1)
