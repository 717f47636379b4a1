#!/usr/bin/env python3
"""waiting.py CLIENTS COMMAND..: so many clients wait at one slot before the proxy that COMMAND starts at 127.0.0.1:18285; bench/waiting.sh calls it.

Prints how many pairs of them were served out of due-date order, and what the proxy took while they waited: KiB of memory and milliseconds of processor time a second, each for a client."""
import asyncio
import os
import random
import subprocess
import sys
import time

CLIENTS, COMMAND = int(sys.argv[1]), sys.argv[2:]
PROXY, SERVER = 18285, 18286
SPACE = min(100, 500_000 // CLIENTS)
TOLERANCE = 20
ANSWER = b"HTTP/1.1 200 OK\r\nContent-Length: 2\r\nConnection: close\r\n\r\nok"
served, blocked = [], asyncio.Event()
WATCHED_SECONDS = 3


async def serve(reader, writer):
    """Answers at once, but for the first request, which holds the slot."""
    try:
        head = (await reader.readuntil(b"\r\n\r\n")).decode()
        number = int(head.split("/", 1)[1].split(" ", 1)[0])
        if number < 0:
            await blocked.wait()
        else:
            served.append(number)
        writer.write(ANSWER)
        await writer.drain()
    except (asyncio.IncompleteReadError, ConnectionError):
        pass
    writer.close()


async def come(number, due):
    reader, writer = await asyncio.open_connection("127.0.0.1", PROXY)
    writer.write(f"GET /{number} HTTP/1.1\r\nHost: h\r\nX-Due: {due}\r\n\r\n".encode())
    return reader, writer


async def end(client):
    reader, writer = client
    got = await reader.read()
    writer.close()
    return got.endswith(b"ok")


def memory(pid):
    """The resident KiB of a process."""
    with open(f"/proc/{pid}/statm", encoding="ascii") as it:
        return int(it.read().split()[1]) * os.sysconf("SC_PAGE_SIZE") // 1024


def ticks(pid):
    """Its processor time in milliseconds."""
    with open(f"/proc/{pid}/stat", encoding="ascii") as it:
        words = it.read().rsplit(")", 1)[1].split()
    return (int(words[11]) + int(words[12])) * 1000 // os.sysconf("SC_CLK_TCK")


def out_of_order(dues):
    """How many pairs of a list of due dates are in the wrong order by more than what the sending of one may take."""
    return sum(later + TOLERANCE < due for at, due in enumerate(dues) for later in dues[at + 1:])


async def main():
    server = await asyncio.start_server(serve, "127.0.0.1", SERVER, backlog=4096)
    with subprocess.Popen(COMMAND, stdout=subprocess.DEVNULL, stderr=subprocess.DEVNULL) as proxy:
        await asyncio.sleep(2)
        first = await come(-1, -500000)
        await asyncio.sleep(1)
        before = memory(proxy.pid)
        order = list(range(CLIENTS))
        random.Random(7).shuffle(order)
        clients, dues = [], {}
        for number in order:
            offset = (number - CLIENTS) * SPACE
            dues[number] = time.monotonic() * 1000 + offset
            clients.append(await come(number, offset))
        await asyncio.sleep(2)
        used, took = memory(proxy.pid) - before, ticks(proxy.pid)
        await asyncio.sleep(WATCHED_SECONDS)
        took = ticks(proxy.pid) - took
        blocked.set()
        answered = sum(await asyncio.gather(*[end(it) for it in [first, *clients]])) - 1
        print(f"{CLIENTS} clients, {answered} answered, {out_of_order([dues[it] for it in served])} pairs out of order; {used / CLIENTS:.2f} KiB a client, "
              f"{took / WATCHED_SECONDS * 1000 / CLIENTS:.3f} ms of processor time a second for each 1,000")
        proxy.kill()
    server.close()
    return 0 if answered == CLIENTS else 1


sys.exit(asyncio.run(main()))
