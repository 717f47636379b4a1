"""A proxy between one client and its servers, as a plain model: what becomes of a list of moves, after each of which all comes to rest.

It is a part of bench/exchanges.py. A move is a name and what belongs to it. `client` and `server` send a piece; the other moves are those of `MOVES`."""
import copy

from exchange_texts import (
    HEAD_BYTES,
    LEAVE,
    TO_END,
    Bad,
    Body,
    answer_framing,
    answered_head,
    forwarded_head,
    framing,
    interim_head,
    is_welcome,
    read_head,
    refusal,
    CHUNKED,
)

MOVES = """client-end client-reset client-takes client-flows server-end server-reset server-deaf server-takes server-flows
grant unserved connected connected-again unreachable late""".split()
ALL = 1 << 60
MOST_INTERIMS = 8
MOST_REDIALS = 1
SERVED_TWICE = (b"GET", b"HEAD", b"OPTIONS", b"TRACE", b"PUT", b"DELETE")
ADDRESS = b"192.0.2.7"


class Terms:
    """With what a connection's exchanges are served."""

    def __init__(self, words=""):
        self.words = words
        said = words.split()
        self.keeps, self.aborts = "keep" in said, "aborts" in said
        self.asks, self.address = "asks" in said, ADDRESS if "names" in said else None
        self.in_pieces = any(word.isdigit() for word in said)


class Request:
    """A request whose head was read, and the way of its text to a server."""

    def __init__(self, head, held):
        self.head, self.held, self.minor, self.method = head, held, head.minor, head.parts[0]
        self.how = framing(head, 0)
        self.begin()

    def begin(self):
        self.body = Body(self.how, True)
        self.reached = False
        self.redials = 0

    def leave(self):
        expects = any(value.lower() == b"100-continue" for value in self.head.values(b"expect"))
        return LEAVE if self.minor and self.how != 0 and expects else b""

    def wished(self):
        """What its client wishes of its connection."""
        options = self.head.options()
        if b"close" in options:
            return "close"
        return "persist" if self.minor else "keep-alive" if b"keep-alive" in options else "close"


class Server:
    """A connection to a server: what it was sent, and what it sent."""

    def __init__(self, fresh, waits):
        self.fresh, self.waits, self.sent, self.room = fresh, waits, b"", ALL
        self.deaf = self.cut = False
        self.unread, self.held, self.interims, self.body, self.ended = [], b"", 0, None, None


class Model:
    """Where a client's connection is, and what came of it."""

    def __init__(self, terms):
        self.terms = terms
        self.stage = "asking"
        self.unread, self.client_ended, self.gone = [], False, False
        self.held, self.request, self.server = b"", None, None
        self.out, self.room, self.told = b"", ALL, b""
        self.leave_left, self.begun, self.asks_again, self.says = 0, False, False, "close"
        self.sents, self.floors = [], []
        self.sent_before = self.told_before = self.told_floor = None
        self.passes, self.answers, self.exchanges, self.moved = [], 0, 0, None

    # What both sides see.

    def result(self):
        """What came of it, where nothing more happens."""
        it = copy.copy(self)
        it.sents, it.floors, it.passes = list(self.sents), list(self.floors), list(self.passes)
        if it.stage in ("dialing", "forwarding"):
            it.passes.append("done")
        it.drop_server()
        return it

    def drop_server(self):
        if self.server:
            sent = len(self.server.sent)
            self.sents.append(self.server.sent)
            self.floors.append(sent if self.sent_before is None else min(sent, self.sent_before))
            self.server = None

    def post(self, ending):
        self.passes.append(ending)
        self.drop_server()

    def over(self):
        if self.stage in ("dialing", "forwarding"):
            self.post("done")
        if self.told_floor is None and self.told_before is not None:
            self.told_floor = self.told_before
        self.stage = "over"

    def tell_last(self, text):
        """The client is told this, and left."""
        self.stage, self.asks_again = "telling", False
        self.out += text

    # What happens.

    def happen(self, moves):
        """These moves, and all that follows of them. Where bytes go in pieces, they may still be on their way when it ends."""
        if self.terms.in_pieces:
            self.mark()
        for name, what in moves:
            if self.stage != "over":
                getattr(self, "on_" + name.replace("-", "_"))(what)
        self.rest()
        if self.terms.in_pieces:
            self.unmark()

    def mark(self):
        """Of what is sent from here on less may be sent, if the exchange ends before the next call of `unmark`."""
        self.sent_before = len(self.server.sent) if self.server else 0
        self.told_before = len(self.told)

    def unmark(self):
        self.sent_before = self.told_before = None

    def least_told(self):
        return len(self.told) if self.told_floor is None else self.told_floor

    def on_client(self, piece):
        if not self.client_ended:
            self.unread.append(piece)

    def on_client_end(self, _):
        self.client_ended = self.gone = True

    def on_client_reset(self, _):
        self.over()

    def on_client_takes(self, count):
        self.room = count

    def on_client_flows(self, _):
        self.room = ALL

    def on_server(self, piece):
        if self.server:
            self.server.unread.append(piece)

    def on_server_end(self, _):
        self.on_server("end")

    def on_server_reset(self, _):
        self.on_server("reset")

    def on_server_deaf(self, _):
        if self.server:
            self.server.deaf = True

    def on_server_takes(self, count):
        if self.server:
            self.server.room = count

    def on_server_flows(self, _):
        self.on_server_takes(ALL)

    def on_grant(self, _):
        if self.stage == "waiting":
            self.stage = "dialing"
            self.request.begin()
            self.leave_left, self.begun = 0, False

    def on_unserved(self, _):
        if self.stage == "waiting":
            self.tell_last(refusal(503))

    def on_connected(self, _):
        self.connects(True)

    def on_connected_again(self, _):
        self.connects(False)

    def on_unreachable(self, _):
        if self.stage == "dialing":
            self.fails_to_connect()

    def on_late(self, _):
        """The side that is waited for was silent for too long."""
        if self.stage == "asking":
            if self.held:
                self.refuse_head()
            else:
                self.over()
        elif self.stage == "waiting":
            self.on_unserved(None)
        elif self.stage == "dialing":
            self.fails_to_connect()
        elif self.stage == "forwarding" and not self.out and (self.server.waits or self.request.body.whole):
            self.breaks_off(502)
        else:
            self.over()

    # A connection to a server.

    def connects(self, fresh):
        if self.stage != "dialing":
            return
        self.stage = "forwarding"
        request = self.request
        if self.is_moved():
            self.server = Server(fresh, self.moved)
            self.moved = None
            return
        text = forwarded_head(request.head, self.terms.asks, self.terms.address)
        request.body = Body(request.how, True)
        self.server = Server(fresh, text)
        self.out = request.leave()
        self.leave_left, self.begun = len(self.out), False
        self.hear_request_held()

    def is_moved(self):
        """Whether a request's text waits for another connection as it stands."""
        return self.moved is not None

    def fails_to_connect(self):
        request = self.request
        if self.is_moved():
            self.moved = None
            self.breaks_off(503)
        elif request.reached:
            self.post("done")
            self.tell_last(refusal(503))
        else:
            self.post("failed")
            self.stage = "waiting"

    def server_ends(self, how):
        server, request = self.server, self.request
        server.ended = how
        if server.body is not None:
            if server.body.how == TO_END:
                self.settles(how == "end")
            else:
                self.breaks_off(502)
            return
        nothing = server.interims == 0 and not server.held
        bare = request.how == 0
        twice = not server.fresh and request.method in SERVED_TWICE
        if nothing and bare and (not request.reached or twice):
            self.redials(None)
        elif nothing and not request.reached:
            self.redials(server.waits)
        else:
            self.breaks_off(502)

    def redials(self, moved):
        """Another connection is opened in place of one that broke before anything came of it, once."""
        self.drop_server()
        self.stage, self.moved = "dialing", moved
        self.request.redials += 1
        if self.request.redials > MOST_REDIALS:
            self.fails_to_connect()

    def breaks_off(self, status):
        """The answer can't go on: a client that took a byte of it gets no more than what came, and another a refusal."""
        self.post("done")
        if self.begun:
            self.tell_last(b"")
        else:
            self.out = self.out[: self.leave_left]
            self.tell_last(refusal(status))

    # The request's way.

    def hear_request_held(self):
        request = self.request
        used = request.body.take(request.held)
        self.server.waits += request.body.text
        request.held = request.held[used:]

    def reads_request(self):
        """Whether a piece of the client, or its end, is read."""
        if self.stage == "asking":
            return True
        body = self.request.body if self.stage == "forwarding" else None
        return body is not None and not self.server.cut and not body.whole and not body.bad

    def hear_client(self, piece):
        if self.stage == "asking":
            return self.hear_head(piece)
        body = self.request.body
        before = len(body.text)
        used = body.take(piece)
        self.server.waits += body.text[before:]
        if body.bad:
            if self.server.body is None:
                self.breaks_off(400)
        elif used < len(piece):
            self.unread.insert(0, piece[used:])
        return None

    def hear_head(self, piece):
        room = HEAD_BYTES - len(self.held)
        if len(piece) > room:
            self.unread.insert(0, piece[room:])
        self.held += piece[:room]
        if b"\n" in piece[:room] or len(self.held) == HEAD_BYTES:
            self.look()

    def look(self):
        """Whether a head that the proxy takes stands in what came."""
        try:
            head = read_head(self.held, True)
            if head is None:
                return
            if not is_welcome(head):
                raise Bad
            request = Request(head, self.held[head.length :])
            body = Body(request.how, True)
            body.take(request.held)
            if body.bad:
                raise Bad
        except Bad:
            self.refuse_head()
            return
        self.request, self.stage = request, "waiting"
        self.exchanges += 1

    def refuse_head(self):
        self.exchanges += 1
        self.tell_last(refusal(400))

    # The answer's way.

    def hear_server(self, piece):
        server = self.server
        if server.body is None:
            server.held += piece
            if b"\n" in piece or len(server.held) >= HEAD_BYTES:
                self.look_for_answer()
        else:
            self.hear_body(piece)

    def look_for_answer(self):
        server, request = self.server, self.request
        try:
            while server.body is None:
                head = read_head(server.held, False)
                if head is None:
                    return
                how, stated = answer_framing(head, request.method)
                if 100 <= head.parts[0] < 200:
                    if server.interims == MOST_INTERIMS:
                        raise Bad
                    server.interims += 1
                    self.out += interim_head(head, request.minor)
                else:
                    self.begin_answer(head, how, stated)
                server.held = server.held[head.length :]
        except Bad:
            self.breaks_off(502)
            return
        held, server.held = server.held, b""
        self.hear_body(held)

    def begin_answer(self, head, how, stated):
        request = self.request
        shown = how != TO_END and (how != CHUNKED or request.minor)
        self.says = request.wished() if self.terms.keeps and shown else "close"
        self.out += answered_head(head, stated, request.minor, self.says)
        self.server.body = Body(how, bool(request.minor))

    def hear_body(self, piece):
        body = self.server.body
        before = len(body.text)
        body.take(piece)
        self.out += body.text[before:]
        if body.bad:
            self.breaks_off(502)
        elif body.whole:
            self.settles(True)

    def settles(self, whole):
        """The answer is over: its client may ask again where the request was whole, too, and both sides wish it."""
        self.answers += whole
        asks_again = whole and self.request.body.whole and self.says != "close"
        self.post("done")
        self.stage, self.asks_again = "telling", asks_again

    def asks_next(self):
        self.stage, self.asks_again = "asking", False
        self.held, self.request = self.request.held, None
        self.look()

    # Coming to rest.

    def rest(self):
        while self.step():
            pass

    def step(self):
        """Does one thing that there is to do. Whether there was one. A client that has gone is left once what came and can go on has gone on."""
        if self.stage == "over":
            return False
        return self.write_client() or self.write_server() or self.read_server() or self.read_client() or self.leave() or self.go_on()

    def leave(self):
        leaves = self.gone and self.terms.aborts and self.has_asked()
        if leaves:
            self.over()
        return leaves

    def has_asked(self):
        return self.stage in ("waiting", "dialing") and not (self.is_moved() and not self.request.body.whole) or (
            self.stage == "forwarding" and self.request.body.whole
        )

    def write_client(self):
        count = min(self.room, len(self.out))
        if count == 0 or self.stage in ("asking", "waiting", "dialing"):
            return False
        self.told += self.out[:count]
        self.out = self.out[count:]
        self.room -= count
        self.begun = self.begun or count > self.leave_left
        self.leave_left = max(0, self.leave_left - count)
        return True

    def write_server(self):
        server = self.server
        if self.stage != "forwarding" or not server.waits or server.cut:
            return False
        if server.deaf:
            server.cut = True
            return True
        count = min(server.room, len(server.waits))
        if count == 0:
            return False
        server.sent += server.waits[:count]
        server.waits = server.waits[count:]
        server.room -= count
        self.request.reached = True
        return True

    def read_server(self):
        server = self.server
        if self.stage != "forwarding" or not server.unread:
            return False
        what = server.unread.pop(0)
        if isinstance(what, str):
            self.server_ends(what)
            return True
        room = HEAD_BYTES - len(server.held) if server.body is None else len(what)
        if len(what) > room:
            server.unread.insert(0, what[room:])
        self.hear_server(what[:room])
        return True

    def read_client(self):
        if not self.reads_request():
            return False
        if self.unread:
            self.hear_client(self.unread.pop(0))
            return True
        if self.client_ended:
            self.over()
            return True
        return False

    def go_on(self):
        if self.stage != "telling" or self.out:
            return False
        if self.asks_again:
            self.asks_next()
        else:
            self.stage = "over"
        return True
