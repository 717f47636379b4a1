"""The dispatcher of `dueproxy replay` as a plain model: what a script's steps are answered with.

It is a part of bench/replays.py. It follows docs/FORMATS.md and docs/DEFINITIONS.md by lists and loops over all requests and servers, and keeps nothing that
it could find again."""
from replay_texts import BadScript, read_script

BACKEND = "*"
HIGHEST_CLASS, HIGHEST_OFFSET = 2047, 524287
FIRST_TICKET_NEVER_GIVEN = 1 << 40


class Server:
    """A server by its line, with its present limit (None where it is closed) and the results of its checks."""

    def __init__(self, name, limit, most_waiting, weight, rise=None, fall=None):
        self.name, self.limit, self.most_waiting, self.weight = name, limit, most_waiting, weight
        self.rise, self.fall = rise, fall
        self.results, self.up = [], True

    def is_checked(self):
        return self.fall is not None

    def is_usable(self):
        return self.up and self.weight > 0

    def is_up_by_results(self):
        up = True
        for end in range(1, len(self.results) + 1):
            if self.ends_with(end, "down", self.fall):
                up = False
            if self.ends_with(end, "up", self.rise):
                up = True
        return up

    def ends_with(self, end, result, count):
        return count <= end and all(it == result for it in self.results[end - count : end])


class Request:
    """A live request. It waits in a queue since a moment, or has a slot of a server, or was told that it isn't served, or is about to be placed."""

    def __init__(self, ticket, class_number, due):
        self.ticket, self.class_number, self.due, self.failures = ticket, class_number, due, 0
        self.queue = self.since = self.server = None

    def key(self):
        return self.class_number, self.due, self.ticket

    def waits(self, queue, since):
        self.queue, self.since, self.server = queue, since, None

    def is_served_by(self, server):
        self.queue, self.since, self.server = None, None, server

    def is_loose(self):
        self.queue = self.since = self.server = None


class Grant:
    """A slot that went to a request which waited."""

    def __init__(self, request, queue, moment, position):
        self.queue, self.class_number, self.ticket, self.due = queue, request.class_number, request.ticket, request.due
        self.lateness, self.position = moment - request.due, position


class Dispatcher:
    """What a script sets up, and all that was written of its steps so far."""

    def __init__(self, settings):
        self.places, self.most_entries, self.retries = settings.places, settings.log, settings.retries
        self.redispatch, self.queue_timeout = settings.redispatch, settings.queue_timeout
        self.servers = [Server(*words) for words in settings.servers]
        self.picked = self.servers[-1]
        # By rising ticket, as is the order in which a tick tells them.
        self.live = []
        self.moment, self.tickets = 0, 0
        self.lines, self.entries, self.grants = [], 0, []

    # What holds of the servers and queues.

    def server_named(self, name):
        return next((it for it in self.servers if it.name == name), None)

    def served(self, server):
        return [it for it in self.live if it.server is server]

    def waiting(self, *queues):
        return [it for it in self.live if it.queue in queues]

    def load(self, server):
        return len(self.served(server)) + len(self.waiting(server.name))

    def is_free(self, server):
        return server.limit is not None and (server.limit == 0 or len(self.served(server)) < server.limit)

    def has_room(self, server):
        if not server.is_usable() or server.limit is None:
            return False
        return server.limit == 0 or self.load(server) < server.limit + server.most_waiting

    def takes_pinned(self, server):
        if not server.up or server.limit is None:
            return False
        return self.is_free(server) or server.most_waiting == 0 or len(self.waiting(server.name)) < server.most_waiting

    def may_take(self, server):
        """The requests that a free slot of the server may go to."""
        if not server.up or not self.is_free(server):
            return []
        return self.waiting(server.name, BACKEND) if server.is_usable() else self.waiting(server.name)

    def pick(self, servers):
        """The least loaded one by weight, and of several such ones the first after the one that was picked last."""
        loads = [(self.load(it), it) for it in servers]
        least = [it for load, it in loads if all(load * other.weight <= other_load * it.weight for other_load, other in loads)]
        start = self.servers.index(self.picked) + 1
        return next(it for it in [*self.servers[start:], *self.servers[:start]] if it in least)

    # What is written.

    def enter(self, line):
        self.lines.append(line)
        self.entries += 1

    def roll(self):
        self.lines.append("roll")
        self.report()
        self.entries, self.grants = 0, []

    def report(self):
        """A line for each queue and class with a grant."""
        for queue in [BACKEND, *(it.name for it in self.servers)]:
            for class_number in sorted({it.class_number for it in self.grants if it.queue == queue}):
                self.lines.append(report_line(queue, class_number, [it for it in self.grants if it.queue == queue and it.class_number == class_number]))

    # What happens at an event.

    def happen(self, step):
        """An event and all that follows of it, or its refusal."""
        refusal = self.refusal(step)
        if refusal:
            self.lines.append(f"refused {refusal}")
            return
        self.moment = max(self.moment, step.moment)
        getattr(self, "on_" + step.name)(*step.values)
        self.settle()

    def refusal(self, step):
        """The number of the first refusal that applies, or None."""
        if self.log_is_full():
            return 3
        if step.name in ("done", "fail", "abort"):
            request = self.request_of(step.values[0])
            return 4 if request is None else None if suits(request, step.name) else 5
        server = self.server_named(step.server) if step.server is not None else None
        if step.server is not None and server is None:
            return 6
        if step.name == "check" and not server.is_checked():
            return 5
        if step.name == "arrive":
            return 14 if self.tickets + 1 == FIRST_TICKET_NEVER_GIVEN else 2 if len(self.live) == self.places else None
        return None

    def log_is_full(self):
        return self.most_entries - self.entries < 2 * self.places + 8

    def request_of(self, ticket):
        return next((it for it in self.live if it.ticket == ticket), None)

    def on_arrive(self, class_number, offset, name):
        self.tickets += 1
        request = Request(self.tickets, nearest(class_number, HIGHEST_CLASS), self.moment + nearest(offset, HIGHEST_OFFSET))
        self.live.append(request)
        self.enter(f"{self.moment} arrive {request.ticket} {request.class_number} {request.due}" + (f" {name}" if name else ""))
        server = self.server_named(name) if name else None
        if server and self.takes_pinned(server):
            self.place_at(request, server)
        else:
            self.balance(request, None)

    def place_at(self, request, server):
        if self.is_free(server):
            request.is_served_by(server)
            self.enter(f"  direct {request.ticket} {server.name}")
        else:
            self.join(request, server.name)

    def join(self, request, queue):
        request.waits(queue, self.moment)
        self.enter(f"  join {request.ticket} {queue}")

    def balance(self, request, avoided):
        """Places a request without a pin; on the avoided server only where no other has room."""
        usable = [it for it in self.servers if it.is_usable()]
        roomy = [it for it in usable if self.has_room(it)]
        roomy = [it for it in roomy if it is not avoided] or roomy
        if roomy:
            self.picked = self.pick(roomy)
            self.place_at(request, self.picked)
        elif usable:
            self.join(request, BACKEND)
        else:
            self.leave(request, "noserver")

    def leave(self, request, cause):
        request.is_loose()
        self.enter(f"  left {request.ticket} {cause}")

    def free(self, request):
        self.enter(f"  free {request.ticket} {request.server.name}")
        request.is_loose()

    def on_done(self, ticket):
        request = self.request_of(ticket)
        self.enter(f"{self.moment} done {ticket}")
        if request.server:
            self.free(request)
        self.live.remove(request)
        self.enter(f"  end {ticket}")

    def on_fail(self, ticket):
        request = self.request_of(ticket)
        server = request.server
        request.failures += 1
        self.enter(f"{self.moment} fail {ticket}")
        if request.failures > self.retries:
            self.free(request)
            self.leave(request, "retries")
        elif request.failures == self.retries and self.redispatch:
            self.free(request)
            self.settle()
            self.balance(request, server)
        else:
            self.enter(f"  retry {ticket} {server.name} {request.failures}")

    def on_abort(self, ticket):
        self.enter(f"{self.moment} abort {ticket}")
        self.leave(self.request_of(ticket), "aborted")

    def on_tick(self):
        self.enter(f"{self.moment} tick")
        for request in list(self.live):
            if request.queue and 0 < self.queue_timeout <= self.moment - request.since:
                self.leave(request, "timeout")

    def on_check(self, name, result):
        server = self.server_named(name)
        self.enter(f"{self.moment} check {name} {result}")
        server.results.append(result)
        was_up, server.up = server.up, server.is_up_by_results()
        if server.up != was_up:
            self.enter(f"  health {name} {result}")
            if not server.up:
                self.empty(server)

    def on_limit(self, name, limit):
        server = self.server_named(name)
        server.limit = limit
        self.enter(f"{self.moment} limit {name} " + ("closed" if limit is None else str(limit)))
        if limit is None:
            self.empty(server)

    def empty(self, server):
        """Where requests are redispatched, those in the server's queue move to the backend's, by rising key."""
        if not self.redispatch:
            return
        for request in sorted(self.waiting(server.name), key=Request.key):
            request.waits(BACKEND, self.moment)
            self.enter(f"  move {request.ticket} {server.name}")

    def settle(self):
        """Slots go to waiting requests, as long as a server can take one."""
        while taking := [it for it in self.servers if self.may_take(it)]:
            weightless = [it for it in taking if it.weight == 0]
            taker = weightless[0] if weightless else self.pick(taking)
            request = min(self.may_take(taker), key=Request.key)
            if taker.weight > 0:
                self.picked = taker
            self.enter(f"  grant {request.ticket} {request.queue} {taker.name}")
            self.grants.append(Grant(request, request.queue, self.moment, self.entries))
            request.is_served_by(taker)


def suits(request, name):
    """Whether the event can be of a request in this state."""
    if name == "done":
        return request.queue is None
    return request.server is not None if name == "fail" else request.queue is not None


def nearest(number, most):
    return max(-most, min(most, number))


def report_line(queue, class_number, grants):
    """The report on these grants of one queue and class, in their order."""
    worst = max(it.lateness for it in grants)
    latest = next(it for it in grants if it.lateness == worst)
    cut = max((it.position for it in grants if it.position < latest.position and it.due > latest.due), default=0)
    critical = " ".join(str(it.ticket) for it in grants if cut < it.position <= latest.position)
    return f"queue {queue} class {class_number} granted {len(grants)} worst {worst} due {latest.due} after {cut} to {latest.position} critical {critical}"


def replayed(text):
    """Status, standard output and standard error of the replay of a script."""
    try:
        settings, steps = read_script(text)
    except BadScript as fault:
        return 5, b"", fault.said()
    dispatcher = Dispatcher(settings)
    for step in steps:
        if step.name == "roll":
            dispatcher.roll()
        else:
            dispatcher.happen(step)
    dispatcher.report()
    return 0, "".join(line + "\n" for line in dispatcher.lines).encode(), b""
