"""The lines of a script for `dueproxy replay`, by docs/FORMATS.md: what they say, and what is said of the first faulty one.

It is a part of bench/replays.py."""
import re

MOST_BYTES = 4194304
MOST_SERVERS = 64
NAME = re.compile(rb"[A-Za-z0-9_.:-]{1,32}")
MANY_SERVERS, SAME_NAME = "There are at most 64 servers.", "A server of this name stands in an earlier line."
LATE_HEADER = "Header lines stand before the first event."
NO_LINE, NO_EVENT = "No line begins so: an event begins with its moment.", "No event has this name."
NO_MOMENT = "An event begins with its moment, in milliseconds."


class Misfit(Exception):
    """A word that can't stand where it stands, by its place in the line; behind the last word there is none. `near` are the words that could stand there."""

    def __init__(self, place, sentence, near=()):
        super().__init__(sentence)
        self.place, self.sentence, self.near = place, sentence, near


class BadScript(Exception):
    """The number of the first faulty line, and what is said of it."""

    def __init__(self, number, said):
        super().__init__(number)
        self.number, self.explanation = number, said

    def said(self):
        return f"script line {self.number}\n{self.explanation}".encode("latin-1")


class Settings:
    """What the header lines set up."""

    def __init__(self):
        self.places, self.log, self.retries, self.redispatch, self.queue_timeout = 64, 262144, 3, False, 0
        self.servers = []


class Step:
    """An event or a roll. `server` is the name of a server that has to exist."""

    def __init__(self, name, moment=0, values=(), server=None):
        self.name, self.moment, self.values, self.server = name, moment, values, server


class Word:
    """A kind of word: its values, and what is said where another word stands there."""

    def __init__(self, value, sentence):
        self.value, self.sentence = value, sentence


def digits(most, signed, low, high):
    """The value of a word of so many digits, within its range, or None."""
    form = re.compile(rb"%s[0-9]{1,%d}" % (b"-?" if signed else b"", most))

    def value(word):
        return int(word) if form.fullmatch(word) and low <= int(word) <= high else None

    return value


def number(low, high, sentence):
    return Word(digits(9, False, low, high), sentence)


def one_of(words):
    return lambda word: words.get(word)


ENDLESS = 10**18
COUNT = number(0, ENDLESS, "A number of 1 to 9 digits has to stand here.")
RUN = number(1, ENDLESS, "A number of 1 to 9 digits above 0 has to stand here.")
WEIGHT = number(0, 256, "A weight is a number from 0 to 256.")
LONG = Word(digits(18, False, 0, ENDLESS), "A number of 1 to 18 digits has to stand here.")
SIGNED = Word(digits(18, True, -ENDLESS, ENDLESS), "A number of 1 to 18 digits, with a - before it or none, has to stand here.")
SERVER = Word(lambda word: word.decode() if NAME.fullmatch(word) else None, "A name is 1 to 32 letters, digits, -, _, . and :.")
RESULT = Word(one_of({b"up": "up", b"down": "down"}), "Here stands up or down.")
CLOSED = "closed"
LIMIT = Word(lambda word: CLOSED if word == b"closed" else COUNT.value(word), "Here stands a number of 1 to 9 digits, or closed.")


class Form:
    """What a line looks like, the kinds of its words after its own one, and how many of the last ones may be missing together."""

    def __init__(self, looks, kinds, missing=0):
        self.looks, self.kinds, self.missing = looks, kinds, missing

    def values(self, words, before):
        """The values of these words, which stand behind so many others."""
        values = []
        for place, (word, kind) in enumerate(zip(words, self.kinds)):
            value = kind.value(word)
            if value is None:
                raise Misfit(before + place, f"{kind.sentence} The line is {self.looks}.")
            values.append(value)
        if len(words) > len(self.kinds):
            raise Misfit(before + len(self.kinds), f"The line is {self.looks}.")
        if len(words) not in (len(self.kinds), len(self.kinds) - self.missing):
            raise Misfit(before + len(words), f"The line is {self.looks}.")
        return values


HEADERS = {
    b"places": Form("places N", [number(1, 4096, "A number from 1 to 4096 has to stand here.")]),
    b"log": Form("log N", [number(1, 262144, "A number from 1 to 262144 has to stand here.")]),
    b"retries": Form("retries N", [COUNT]),
    b"redispatch": Form("redispatch", []),
    b"queue-timeout": Form("queue-timeout N", [COUNT]),
    b"server": Form("server NAME MAXCONN MAXQUEUE WEIGHT [RISE FALL]", [SERVER, COUNT, COUNT, WEIGHT, RUN, RUN], 2),
}
EVENTS = {
    b"arrive": Form("M arrive CLASS OFFSET [NAME]", [SIGNED, SIGNED, SERVER], 1),
    b"done": Form("M done TICKET", [LONG]),
    b"fail": Form("M fail TICKET", [LONG]),
    b"abort": Form("M abort TICKET", [LONG]),
    b"tick": Form("M tick", []),
    b"check": Form("M check NAME up|down", [SERVER, RESULT]),
    b"limit": Form("M limit NAME N|closed", [SERVER, LIMIT]),
}
BEGINNINGS = [*HEADERS, b"roll"]


def lines_of(text):
    """The lines without their ends. The last one may lack its end."""
    lines = text.split(b"\n")
    last = lines.pop()
    lines = [line.removesuffix(b"\r") for line in lines]
    return [*lines, last] if last else lines


def words_of(line):
    return [word for word in re.split(rb"[ \t]+", line) if word]


def read_script(text):
    """The settings and the steps of a script."""
    if len(text) > MOST_BYTES:
        raise BadScript(0, f"  A script has at most {MOST_BYTES} bytes.\n")
    settings, steps = Settings(), []
    for place, line in enumerate(lines_of(text)):
        words = words_of(line)
        if not words or line.startswith(b"#"):
            continue
        try:
            if words[0] in HEADERS:
                set_up(settings, words, steps)
            else:
                steps.append(read_step(words))
        except Misfit as misfit:
            raise BadScript(place + 1, explained(place + 1, line, misfit)) from None
    settings.servers = settings.servers or [("s1", 1, 0, 1)]
    return settings, steps


def set_up(settings, words, steps):
    """What a header line sets."""
    values = HEADERS[words[0]].values(words[1:], 1)
    if steps:
        raise Misfit(0, LATE_HEADER)
    if words[0] == b"server":
        if any(values[0] == server[0] for server in settings.servers):
            raise Misfit(1, SAME_NAME)
        if len(settings.servers) == MOST_SERVERS:
            raise Misfit(0, MANY_SERVERS)
        settings.servers.append(values)
    elif words[0] == b"redispatch":
        settings.redispatch = True
    else:
        setattr(settings, words[0].decode().replace("-", "_"), values[0])


def read_step(words):
    """The event or the roll that a line of these words asks for."""
    if words[0] == b"roll":
        Form("roll", []).values(words[1:], 1)
        return Step("roll")
    moment = LONG.value(words[0])
    if moment is None:
        raise Misfit(0, NO_MOMENT if words[0] in EVENTS else NO_LINE, BEGINNINGS)
    if len(words) == 1:
        raise Misfit(1, NO_EVENT)
    if words[1] not in EVENTS:
        raise Misfit(1, NO_EVENT, EVENTS)
    return step_of(words[1].decode(), moment, EVENTS[words[1]].values(words[2:], 2))


def step_of(name, moment, values):
    if name == "arrive":
        values = (values + [None])[:3]
        return Step(name, moment, values, values[2])
    if name == "limit":
        values = [values[0], None if values[1] == CLOSED else values[1]]
    return Step(name, moment, values, values[0] if name in ("check", "limit") else None)


# What is said of a faulty line.


def explained(number, line, misfit):
    """The line, a mark under the word at fault or behind the line, a sentence, and a word that may be meant."""
    head = f"line {number}: "
    spans = [match.span() for match in re.finditer(rb"[^ \t]+", line)]
    start, end = spans[misfit.place] if misfit.place < len(spans) else (len(line), len(line) + 1)
    shown = "".join(" " if byte == 9 else chr(byte) if 32 <= byte < 127 else "?" for byte in line)
    meant = nearest_word(line[start:end], misfit.near)
    said = f"{head}{shown}\n{' ' * (len(head) + start)}{'^' * (end - start)}\n  {misfit.sentence}\n"
    return said + (f"  Did you mean {meant.decode()}?\n" if meant else "")


def nearest_word(word, known):
    """The known word that the fewest changed letters lead to: two at most, and fewer than half as many as its own. Bytes that aren't UTF-8 are like no word."""
    try:
        letters = word.decode()
    except UnicodeDecodeError:
        return None
    near = [(edits(letters, other.decode()), other) for other in known if abs(len(letters) - len(other)) <= 2]
    return min(((count, other) for count, other in near if count <= 2 and 2 * count < len(other)), default=(0, None))[1]


def edits(one, other):
    """How many letters less, more or changed lead from one word to another."""
    row = list(range(len(other) + 1))
    for count, letter in enumerate(one, 1):
        above, row = row, [count]
        for place, wanted in enumerate(other):
            row.append(min(above[place + 1] + 1, row[place] + 1, above[place] + (letter != wanted)))
    return row[-1]
