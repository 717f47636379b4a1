"""Scripts for bench/exchanges.py: random ones, and the samples that are kept with the program.

A random script is made along the model: what may happen next is drawn by where the connection is. What both sides say is mostly right and sometimes not; it is
cut at random places."""

from exchange_model import ALL, Model, Terms

METHODS = [b"GET"] * 6 + [b"POST"] * 6 + [b"HEAD", b"PUT", b"DELETE", b"OPTIONS", b"PATCH", b"get"]
TARGETS = [b"/", b"/a?b=c", b"*", b"http://h/x", b"/\xc3\xa4", b"/%20", b"h:80"]
HOSTS = [b"Host: h\r\n"] * 12 + [b"host:h:80\r\n", b"HOST: \t h \r\n", b"Host:\r\n", b"Host: h\n"]
FIELDS = [b"A: b\r\n", b"Accept:*/*\r\n", b"X-Empty:\r\n", b"TE: trailers\r\n", b"Upgrade: x\r\n", b"Keep-Alive: 5\r\n", b"Trailer: A\r\n", b"x: \xff\t y \r\n", b"A: c\n"]
CONNECTIONS = [b"close", b"keep-alive", b"Keep-Alive", b"A", b"close, a", b"host", b"X-Empty,keep-alive", b"Upgrade", b"Content-Length", b""]
STATUSES = [200] * 10 + [204, 304, 404, 500, 999, 206, 304]
INTERIMS = [100, 102, 103, 103, 199]
REASONS = [b" OK", b" Not so", b" ", b"", b" a  b "]
PIECE = 8000
BAD_REQUESTS = [
    b"GET /a#b HTTP/1.1\r\nHost: h\r\n\r\n",
    b"CONNECT h:80 HTTP/1.1\r\nHost: h\r\n\r\n",
    b"GET /a HTTP/1.1\r\n\r\n",
    b"GET /a HTTP/1.1\r\nHost: h\r\nHost: h\r\n\r\n",
    b"GET /a HTTP/1.0\r\nHost: h\r\nHost: h\r\n\r\n",
    b"GET /a HTTP/1.2\r\nHost: h\r\n\r\n",
    b"GET /a HTTP/2.0\r\n\r\n",
    b"GET  /a HTTP/1.1\r\nHost: h\r\n\r\n",
    b"GET /\x80 HTTP/1.1\r\nHost: h\r\n\r\n",
    b"GET /\x7f HTTP/1.1\r\nHost: h\r\n\r\n",
    b"G(T /a HTTP/1.1\r\nHost: h\r\n\r\n",
    b"GET /a\r\n\r\n",
    b"GET /a HTTP/1.1\rHost: h\r\n\r\n",
    b"GET /a HTTP/1.1\r\nHost : h\r\n\r\n",
    b"GET /a HTTP/1.1\r\nHost: h\r\n b: c\r\n\r\n",
    b"GET /a HTTP/1.1\r\nHost: h\r\nA\r\n\r\n",
    b"GET /a HTTP/1.1\r\nHost: h\x00\r\n\r\n",
    b"\r\n\rGET /a HTTP/1.1\r\nHost: h\r\n\r\n",
    b"GET /a HTTP/1.1\r\nHost: h\r\n" + b"A: b\r\n" * 64 + b"\r\n",
    b"POST /a HTTP/1.1\r\nHost: h\r\nContent-Length: 2\r\nTransfer-Encoding: chunked\r\n\r\n",
    b"POST /a HTTP/1.0\r\nHost: h\r\nTransfer-Encoding: chunked\r\n\r\n",
    b"POST /a HTTP/1.1\r\nHost: h\r\nTransfer-Encoding: gzip, chunked\r\n\r\n",
    b"POST /a HTTP/1.1\r\nHost: h\r\nTransfer-Encoding: chunked\r\nTransfer-Encoding: chunked\r\n\r\n",
    b"POST /a HTTP/1.1\r\nHost: h\r\nContent-Length: 2, 3\r\n\r\n",
    b"POST /a HTTP/1.1\r\nHost: h\r\nContent-Length: 2,\r\n\r\n",
    b"POST /a HTTP/1.1\r\nHost: h\r\nContent-Length: +2\r\n\r\n",
    b"POST /a HTTP/1.1\r\nHost: h\r\nContent-Length: 0000000000000000002\r\n\r\n",
    b"POST /a HTTP/1.1\r\nHost: h\r\nContent-Length:\r\n\r\n",
]
BAD_ANSWERS = [
    b"nonsense\r\n\r\n",
    b"HTTP/1.1 20 OK\r\n\r\n",
    b"HTTP/1.1 2000 OK\r\n\r\n",
    b"HTTP/1.2 200 OK\r\n\r\n",
    b"HTTP/1.1 200 O\x01\r\n\r\n",
    b"HTTP/1.1 200 OK\r\nA : b\r\n\r\n",
    b"HTTP/1.1 200 OK\r\nA: b\r\n c\r\n\r\n",
    b"HTTP/1.1 101 Switching Protocols\r\nUpgrade: x\r\n\r\n",
    b"HTTP/1.0 200 OK\r\nTransfer-Encoding: chunked\r\n\r\n",
    b"HTTP/1.1 200 OK\r\nTransfer-Encoding: gzip\r\n\r\n",
    b"HTTP/1.1 200 OK\r\nContent-Length: 2\r\nTransfer-Encoding: chunked\r\n\r\n",
    b"HTTP/1.1 200 OK\r\nContent-Length: 2\r\nContent-Length: 3\r\n\r\n",
    b"HTTP/1.1 200 OK\r\nContent-Length: x\r\n\r\n",
    b"HTTP/1.1 200 OK\r\n" + b"A: b\r\n" * 65 + b"\r\n",
    b"HTTP/1.0 103 Early\r\nTransfer-Encoding: chunked\r\n\r\n",
]
BAD_CHUNKS = [b"x\r\n", b"\r\n", b"5\nabcde", b"2\r\nabX", b"2\r\nab\n", b"2 x\r\nab", b"1" * 17, b"2;" + b"e" * 300, b"1\r\na\rx", b"0\r\n" + b"t" * 16400, b"1;a\nb"]

class Maker:
    """Makes one random script."""

    def __init__(self, chance):
        self.chance = chance
        words = [word for word, of in [("keep", 2), ("aborts", 3), ("asks", 4), ("names", 5)] if chance.randrange(of) == 0]
        self.large, self.long = chance.randrange(60) == 0, chance.randrange(60) == 0
        # Where much waits for a side that takes none, the other isn't read meanwhile: such sides take all.
        self.calm = self.large or self.long
        self.piece = chance.choice([1, 2, 3, 7, 40]) if chance.randrange(3) == 0 and not self.calm else None
        self.words = words
        self.model = Model(Terms(" ".join(words)))
        self.groups = []
        self.client, self.server, self.ending = [], [], None
        self.connection = None

    def made(self):
        return self.made_of_heads() if self.chance.randrange(40) == 0 else self.made_of_moves()

    def made_of_heads(self):
        """A client that takes nothing for a while, and heads for it, often more than can wait for it."""
        chance = self.chance
        heads = [long_head(b"103", chance.randrange(6000)) for _ in range(chance.randrange(2, 9))]
        answer = long_head(b"200", chance.randrange(6000))[:-2] + b"Content-Length: 2\r\n\r\nhi"
        moves = [GET, GRANT, CONNECTED, ("client-takes", chance.choice([0, 0, 10])), *(("server", it) for it in [*heads, answer])]
        moves.insert(chance.randrange(5, len(moves) + 1), ("client-flows", None))
        for move in moves:
            self.add([move])
        return "", self.groups

    def made_of_moves(self):
        self.client = self.cut(b"".join(self.request() for _ in range(self.chance.choice([1, 1, 2, 3]))))
        for _ in range(self.chance.choice([6, 12, 20, 40, 60])):
            if self.model.stage == "over":
                break
            self.add(self.group())
        return " ".join([*self.words, *([str(self.piece)] if self.piece else [])]), self.groups

    def add(self, group):
        self.groups.append(group)
        if group[0][0].startswith("connected"):
            self.model.happen(group)
            return
        for move in group:
            self.model.happen([move])

    def group(self):
        """One move, and sometimes some that come at once."""
        first = self.move()
        group = [first]
        if first[0].startswith("connected") and self.model.stage == "dialing" and not self.calm and self.chance.randrange(4) == 0:
            return [first, self.chance.choice([("server-takes", 0), ("server-takes", 0), ("server-takes", 9), ("server-deaf", None)])]
        streams = ("client", "server", "server-end", "server-reset")
        if self.piece is None and self.model.stage == "forwarding" and first[0] in streams and self.chance.randrange(6) == 0:
            for _ in range(self.chance.choice([1, 1, 2])):
                move = self.move()
                if move[0] not in streams:
                    break
                group.append(move)
        return group

    def move(self):
        chance = self.chance
        if chance.randrange(50) == 0:
            return chance.choice([("late", None), ("client-end", None), ("client-reset", None), ("unreachable", None), ("grant", None), ("connected", None)])
        stage = self.model.stage
        if stage == "waiting":
            return self.draw([(12, ("grant", None)), (1, ("unserved", None)), (1, ("late", None)), (3, "client")])
        if stage == "dialing":
            return self.draw([(12, ("connected", None)), (2, ("connected-again", None)), (2, ("unreachable", None)), (1, ("late", None)), (3, "client")])
        if stage == "forwarding":
            return self.forwarding_move()
        return self.draw([(30, "client"), (1, ("client-flows", None)), (1, ("late", None)), (1, ("client-end", None))])

    def forwarding_move(self):
        model = self.model
        if self.connection is not model.server:
            self.connection = model.server
            self.server, self.ending = self.answers(model.request.method)
        rough = 0 if self.calm else 1
        moves = [
            (20 if self.client else 2, "client"),
            (30, "server"),
            (rough, ("client-takes", self.chance.choice([0, 0, 1, 10, 26, 40]))),
            (9 if model.room < ALL // 2 else 1, ("client-flows", None)),
            (rough, ("server-takes", self.chance.choice([0, 0, 1, 30]))),
            (9 if model.server.room < ALL // 2 else 1, ("server-flows", None)),
            (1, ("server-end", None)),
            (rough, ("server-reset", None)),
            (rough, ("server-deaf", None)),
            (1, ("late", None)),
        ]
        return self.draw(moves)

    def draw(self, moves):
        kind = self.chance.choices([it for _, it in moves], [weight for weight, _ in moves])[0]
        if kind == "client":
            return ("client", self.client.pop(0)) if self.client else self.last_of_client()
        if kind == "server":
            return ("server", self.server.pop(0)) if self.server else (self.ending, None)
        return kind

    def last_of_client(self):
        """A client that has said all asks again, or doesn't."""
        if self.chance.randrange(3) == 0 or self.model.stage != "asking":
            return self.chance.choice([("client-end", None), ("client-end", None), ("late", None), ("client-flows", None)])
        self.client = self.cut(self.request())
        return ("client", self.client.pop(0))

    # What both sides say.

    def cut(self, text):
        """The text in pieces, of which none is longer than what is read at once."""
        chance = self.chance
        most = 0 if self.large else chance.choice([0, 1, 2, 2, 3, 5, 60])
        places = {0, len(text), *range(0, len(text), PIECE)} | {chance.randrange(len(text)) for _ in range(most) if text}
        if most == 60 and len(text) <= 60:
            places = set(range(len(text) + 1))
        places = sorted(places)
        return [text[first:last] for first, last in zip(places, places[1:])]

    def request(self):
        chance = self.chance
        if chance.randrange(20) == 0:
            return chance.choice(BAD_REQUESTS)
        if self.long and chance.randrange(2) == 0:
            return b"GET / HTTP/1.1\r\nHost: h\r\nA: " + b"a" * chance.choice([16340, 16345, 16350, 16354, 16355, 17000]) + b"\r\n\r\n"
        head = chance.choice(METHODS) + b" " + chance.choice(TARGETS) + chance.choice([b" HTTP/1.1\r\n"] * 5 + [b" HTTP/1.0\r\n", b" HTTP/1.1\n"])
        head = (b"\r\n" if chance.randrange(15) == 0 else b"") + head + chance.choice(HOSTS) + self.fields()
        if chance.randrange(4) == 0:
            head += b"Expect: " + chance.choice([b"100-continue", b"100-Continue", b"x"]) + b"\r\n"
        framed, body = self.body(b"HTTP/1.0" not in head, False)
        return head + framed + b"\r\n" + body

    def fields(self):
        chance = self.chance
        text = b"".join(chance.choice(FIELDS) for _ in range(chance.choice([0, 0, 1, 3])))
        if chance.randrange(3) == 0:
            text += chance.choice([b"Connection: ", b"connection:"]) + chance.choice(CONNECTIONS) + b"\r\n"
        return text

    def body(self, may_chunk, is_answer):
        """The field that frames a body, and the body."""
        chance = self.chance
        kind = chance.randrange(6)
        if kind < 2:
            return b"", (self.data() if is_answer and chance.randrange(2) else b"")
        if kind < 4 or not may_chunk:
            data = self.data()
            length = chance.choice([b"Content-Length: %d\r\n"] * 5 + [b"content-length:0%d\r\n"])
            if chance.randrange(20) == 0:
                length = b"Content-Length: %%d,%d\r\n" % len(data)
            return length % len(data), data + (self.data() if is_answer and chance.randrange(8) == 0 else b"")
        return chance.choice([b"Transfer-Encoding: chunked\r\n"] * 5 + [b"transfer-encoding:\tCHUNKED \r\n"]), self.chunks()

    def data(self):
        chance = self.chance
        if self.large:
            return chance.randbytes(chance.randrange(70000))
        return bytes(chance.choice(b"abc\r\n 0:\x00\xff") for _ in range(chance.choice([0, 1, 2, 5, 20, 60])))

    def chunks(self):
        chance = self.chance
        text = b""
        for _ in range(chance.choice([0, 1, 2, 3])):
            data = self.data() or b"x"
            size = chance.choice([b"%x", b"%x", b"%X", b"00%x"]) % len(data)
            text += size + chance.choice([b"", b"", b" ", b"\t ", b";a=b", b" ;x"]) + b"\r\n" + data + b"\r\n"
        if chance.randrange(8) == 0:
            return text + chance.choice(BAD_CHUNKS)
        return text + chance.choice([b"0\r\n", b"0\r\n", b"000;x\r\n"]) + chance.choice([b"\r\n", b"\r\n", b"\r\n", b"A: b\r\n\r\n", b"x\ny\n\n"])

    def answers(self, method):
        """The pieces that a server sends, and how it ends."""
        chance = self.chance
        count = chance.choice([0] * 6 + [1, 1, 2, 8, 9])
        text = b"".join(self.head(chance.choice(INTERIMS)) + self.fields() + b"\r\n" for _ in range(count))
        if chance.randrange(14) == 0:
            text += chance.choice(BAD_ANSWERS)
        elif self.long and chance.randrange(2) == 0:
            text += b"HTTP/1.1 200 OK\r\nA: " + b"a" * chance.choice([16359, 16360, 16361, 17000]) + b"\r\n\r\n"
        else:
            status = self.head(chance.choice(STATUSES))
            framed, body = self.body(status.startswith(b"HTTP/1.1"), True)
            text += status + self.fields() + framed + b"\r\n" + (b"" if method == b"HEAD" and chance.randrange(4) else body)
        return self.cut(text), chance.choice(["server-end", "server-end", "server-end", "server-reset", "late"])

    def head(self, status):
        chance = self.chance
        version = chance.choice([b"HTTP/1.1"] * 9 + [b"HTTP/1.0"])
        return version + b" %03d" % status + chance.choice(REASONS) + chance.choice([b"\r\n"] * 9 + [b"\n"])

def long_head(status, size):
    return b"HTTP/1.1 " + status + b" X\r\nA: " + b"a" * size + b"\r\n\r\n"


GET = ("client", b"GET /a HTTP/1.1\r\nHost: h\r\n\r\n")
HI = ("server", b"HTTP/1.1 200 OK\r\nContent-Length: 2\r\n\r\nhi")
GRANT, CONNECTED = ("grant", None), ("connected", None)
SAMPLES = [
    ("", [GET, GRANT, CONNECTED, HI]),
    ("keep names 1", [("client", GET[1] + GET[1]), GRANT, CONNECTED, HI, GRANT, CONNECTED, HI]),
    ("keep", [
        ("client", b"POST /a HTTP/1.1\r\nHost: h\r\nTransfer-Encoding: chunked\r\n\r\n2;x=y\r\nab\r\n"), GRANT, CONNECTED, ("client", b"00\r\nA: b\r\n\r\n"),
        ("server", b"HTTP/1.1 200 OK\r\nTransfer-Encoding: chunked\r\n\r\n0A\r\n01234"), ("server", b"56789\r\n0\r\n\r\n"),
    ]),
    ("keep", [("client", b"POST /a HTTP/1.1\r\nHost: h\r\nContent-Length: 5\r\n\r\nab"), GRANT, CONNECTED, HI]),
    ("", [("client", b"POST /a HTTP/1.1\r\nHost: h\r\nContent-Length: 2\r\nExpect: 100-continue\r\n\r\n"), GRANT, CONNECTED, ("client", b"ab"), HI]),
    ("", [GET, GRANT, CONNECTED, ("server", b"HTTP/1.1 100 Continue\r\n\r\nHTTP/1.1 103 Early Hints\r\nA: b\r\n\r\n"), ("server", b"HTTP/1.1 200 OK\r\n\r\nhi"), ("server-end", None)]),
    ("keep", [
        ("client", b"GET /a HTTP/1.0\r\nConnection: keep-alive\r\n\r\n"), GRANT, CONNECTED, HI,
        ("client", b"GET /b HTTP/1.0\r\nConnection: keep-alive\r\n\r\n"), GRANT, CONNECTED, ("server", b"HTTP/1.1 200 OK\r\nTransfer-Encoding: chunked\r\n\r\n2\r\nhi\r\n0\r\n\r\n"),
    ]),
    ("", [GET, GRANT, ("unreachable", None), GRANT, CONNECTED, ("server", b"HTTP/1.1 200 OK\r\nContent-Length: 3\r\n\r\nhi"), ("server-end", None)]),
    ("", [GET, GRANT, CONNECTED, ("client-takes", 0), ("server", b"HTTP/1.1 200 OK\r\nContent-Length: 3\r\n\r\nhi"), ("server-end", None), ("client-flows", None)]),
    ("", [GET, ("late", None)]),
    ("", [("client", b"GET /a HTTP/1.1\r\nHost: h\r\n b: c\r\n\r\n")]),
    ("", [("client", b"POST /a HTTP/1.1\r\nHost: h\r\nTransfer-Encoding: chunked\r\n\r\n"), GRANT, CONNECTED, ("client", b"2\r\nab"), ("client", b"X")]),
    ("aborts", [GET, GRANT, CONNECTED, ("server", b"HTTP/1.1 200 OK\r\nContent-Length: 3\r\n\r\nh"), ("client-end", None), ("server", b"i!")]),
    ("", [("client", b"POST /a HTTP/1.1\r\nHost: h\r\nContent-Length: 5\r\n\r\nab"), GRANT, CONNECTED, ("server-deaf", None), ("client", b"cde"), HI]),
]
