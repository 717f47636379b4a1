"""Scripts for bench/replays.py: random ones, some with a fault in them.

A random script is made along the model: what happens next is drawn by who waits where, who is served and which servers are up. Rushes take turns with quiet
times, so that queues and places fill and empty again."""
import io
import string

from replay_model import HIGHEST_CLASS, HIGHEST_OFFSET, Dispatcher
from replay_texts import MOST_BYTES, read_script, read_step

NAMES = [*string.ascii_lowercase[:8], "s1", "A", "a.b:1", "x-_9", "closed", "up", "roll", "7", "-", "x" * 32]
PHASES = {
    "even": {},
    "rush": {"arrive": 6},
    "quiet": {"done": 6, "abort": 2},
    "storm": {"check": 6, "limit": 5, "fail": 3, "tick": 2},
    "patience": {"tick": 6, "done": 0.3, "check": 2},
}
GREAT = 10**18 - 1
FAULTS = """0
0 arrive
0 arrive 0
0 arrive 0 x
0 arrive x 0
0 arrive 0 0 a b
0 arrive +1 0
0 arrive 0 --1
0 arrive 0 -
0 arrive 0 0 a*
0 arrive 0 0 yyyyyyyyyyyyyyyyyyyyyyyyyyyyyyyyy
0 arive 0 0
0 ARRIVE 0 0
0 done
0 done x
0 done -1
0 done 1 2
-1 done 1
x done 1
0 dnoe 1
0 fail
0 abort 1 a
0 tick 1
0 tik
0 check
0 check a
0 check a sideways
0 check a dwon
0 check a up up
0 check a UP
0 check a/b up
0 limit a
0 limit a -1
0 limit a open
0 limit a close
0 limit a Closed
0 limit a 1 1
0 limit a 1234567890
0 roll
roll 1
rol
arrive 0 0
done 1
tick
redispach
redispatch 1
places
places 0
places 4097
places x
places 1 2
place 4
log 0
log 262145
log -1
retries x
retries 1234567890
retries
queue-timeout
queue-timeout -1
queue_timeout 5
server
server zz
server zz 1 0
server zz 1 0 257
server zz 1 0 1 1
server zz 1 0 1 0 1
server zz 1 0 1 1 0
server zz 1 0 1 1 1 1
server zz x 0 1
server zz 1 x 1
server zz 1234567890 0 1
server z*z 1 0 1
server * 1 0 1
server yyyyyyyyyyyyyyyyyyyyyyyyyyyyyyyyy 1 0 1
server z/z 1 0 1
servre zz 1 0 1
{"a": 1}
1234567890123456789 tick
0 done 1234567890123456789
0 arrive -1234567890123456789 0
 # 0 tick
 #""".splitlines()
BYTES = [*"\0\x01\t\r #*-/x0~\x1f\x7f\x80\xff\x0b\x0c", "\xc3\xa4"]
LETTERS = [*"aeioulrt-", "\xc3\xa4", "\xff"]
EVENT_WORDS = ["arrive", "done", "fail", "abort", "tick", "check", "limit"]
WORDS = [*EVENT_WORDS, "places", "log", "retries", "redispatch", "queue-timeout", "server", "roll"]


class Maker:
    """Makes one random script, as its lines with their ends. The number of a script says whether it has a fault, and which."""

    def __init__(self, chance, number):
        self.chance, self.number = chance, number
        # Without a limit no request waits, so that most scripts have limits alone.
        self.names, self.tight = [], chance.randrange(6) > 0
        self.server_weights = chance.choice([[1], [1], [1, 1, 2], [0, 1, 1], [0, 1, 1, 2], [0, 1, 2, 3, 10, 255, 256]])
        self.lines = self.header()
        self.model = Dispatcher(read_script("".join(self.lines).encode("latin-1"))[0])
        self.names = [it.name for it in self.model.servers]
        self.classes = chance.choice([[0], [0], [0, 1], [-1, 0, 1], [-1, 0, 0, 0, 7], about(HIGHEST_CLASS)])
        self.offsets = chance.choice([[0], [0, 0, 5], [-5, 0, 5], range(-30, 30), range(-1000, 1000), about(HIGHEST_OFFSET)])
        self.pinning, self.twins = chance.choice([0, 0.1, 0.3, 0.6, 0.9]), chance.choice([0, 0.1, 0.4])
        self.steps = chance.choice([[0], [0, 1], [0, 0, 1, 2, 5], [0, 1, 1, 3, 10], [1, 7, 20], [0, 1000, 100000]])
        self.clock, self.back = chance.choice([0] * 9 + [1, 20, 1 << 31, 1 << 32, GREAT - 50, GREAT]), chance.choice([0, 0, 0.05, 0.3])
        self.weights = self.drawn_weights()
        self.phase, self.failed, self.mood = "even", None, {}

    def drawn_weights(self):
        chance, model = self.chance, self.model
        return {
            "arrive": chance.choice([6, 8, 12]),
            "done": chance.choice([3, 5, 7]),
            "fail": chance.choice([0, 1, 2, 6]),
            "abort": chance.choice([0.2, 0.5, 2]),
            "tick": chance.choice([1, 3]) if model.queue_timeout else 0.2,
            "check": chance.choice([1, 3, 6]) if any(it.is_checked() for it in model.servers) else 0.2,
            "limit": chance.choice([0, 0, 1, 3]),
            "roll": chance.choice([0, 0, 0.3, 1]),
        }

    # The header.

    def header(self):
        chance = self.chance
        lines = [f"server {name} {self.server_words()}" for name in self.drawn_names()]
        places = chance.choice([None, None, 1, 2, 3, 4, 6, 8, 8, 12, 12, 20, 20, 30, 4096])
        needed = 2 * (places or 64) + 8
        for word, values in (
            ("places", [places]),
            ("log", [None] * 8 + [needed + chance.randrange(80), needed + chance.randrange(300), chance.choice([1, needed - 1, needed, 262144])]),
            ("retries", [None, 0, 1, 1, 2, 2, 4, 999999999]),
            ("queue-timeout", [None, None, 0, 1, 3, 5, 10, 40, 1000, 999999999]),
        ):
            value = chance.choice(values)
            if value is not None:
                lines += [f"{word} {chance.randrange(1, 100)}"] * (chance.randrange(30) == 0) + [f"{word} {value}"]
        if chance.randrange(3):
            lines += ["redispatch"] * chance.choice([1] * 9 + [2])
        return [line + "\n" for line in (self.shuffled(lines) if chance.randrange(8) == 0 else lines)]

    def drawn_names(self):
        count = self.chance.choice([0, 1, 1, 2, 2, 2, 3, 3, 3, 4, 5, 8])
        if self.chance.randrange(60) == 0:
            return [f"n{number}" for number in range(self.chance.choice([63, 64, 64]))]
        return self.chance.sample(NAMES, count) if self.chance.randrange(3) == 0 else NAMES[:count]

    def server_words(self):
        chance = self.chance
        limits = [1, 1, 1, 2, 2, 3] if self.tight else [0, 1, 2, 5, 999999999]
        words = [chance.choice(limits), chance.choice([0, 0, 1, 1, 2, 3, 999999999]), chance.choice(self.server_weights)]
        if chance.randrange(3):
            words += [chance.choice([1, 1, 2, 3]), chance.choice([1, 1, 2, 3])]
        return " ".join(map(str, words))

    def shuffled(self, lines):
        """The lines in another order. The model is made of it, as the program is."""
        lines = list(lines)
        self.chance.shuffle(lines)
        return lines

    # The events.

    def made(self):
        """The script's lines. Most scripts are faultless."""
        chance = self.chance
        has_fault = self.number % 4 == 0
        for _ in range(chance.choice([0, 0, 1, 2, 5, 30] if has_fault else [2, 10, 20, 40, 60, 80, 100, 140, 200])):
            self.add()
        if chance.randrange(5) == 0:
            self.lines = [self.loosened(line) for line in self.lines]
        if has_fault:
            self.put_fault()
        if chance.randrange(10) == 0 and self.lines:
            self.lines[-1] = self.lines[-1].rstrip("\n") + chance.choice(["", "", "\r"])
        if chance.randrange(400) == 0:
            self.fill(chance.choice([MOST_BYTES, MOST_BYTES + 1]))
        return io.BytesIO("".join(self.lines).encode("latin-1")).readlines()

    def add(self):
        if self.chance.randrange(10) == 0:
            self.phase = self.chance.choice(list(PHASES))
        weights = self.weights_now()
        kind = self.chance.choices(list(weights), list(weights.values()))[0]
        self.clock = min(GREAT, self.clock + self.chance.choice(self.steps))
        line = getattr(self, kind)()
        self.lines.append(line + "\n")
        step = read_step(line.encode().split())
        if step.name == "roll":
            self.model.roll()
        else:
            self.model.happen(step)

    def weights_now(self):
        """How likely each kind of event is. What would be refused is rare."""
        model = self.model
        weights = {kind: weight * PHASES[self.phase].get(kind, 1) for kind, weight in self.weights.items()}
        for kind, fits in (
            ("arrive", len(model.live) < model.places),
            ("done", any(not it.queue for it in model.live)),
            ("fail", any(it.server for it in model.live)),
            ("abort", any(it.queue for it in model.live)),
        ):
            weights[kind] *= 1 if fits else 0.1
        if model.log_is_full():
            weights["roll"] = sum(weights.values())
        return weights

    def moment(self):
        """The moment of an event. Some go back."""
        return max(0, self.clock - self.chance.choice([1, 1, 5, 1000])) if self.chance.random() < self.back else self.clock

    def arrive(self):
        chance, moment = self.chance, max(self.clock, self.model.moment)
        class_number, offset = chance.choice(self.classes), chance.choice(self.offsets)
        if self.model.live and chance.random() < self.twins:
            twin = chance.choice(self.model.live)
            class_number, offset = twin.class_number, twin.due - moment
        pin = f" {self.pin()}" if chance.random() < self.pinning else ""
        return f"{self.moment()} arrive {class_number} {offset}{pin}"

    def pin(self):
        """Often a server that takes pinned requests alone."""
        weightless = [it.name for it in self.model.servers if it.weight == 0]
        return self.chance.choice(weightless) if weightless and self.chance.randrange(2) else self.name()

    def name(self):
        """A server's name, or sometimes one that no server has."""
        chance = self.chance
        if chance.randrange(30) == 0:
            return chance.choice(["nobody", self.names[0][:31] + "a", self.names[0][:-1] or "A", self.names[0].swapcase(), "y" * 32])
        return chance.choice(self.names)

    def one_with_queue(self, servers):
        """The name of one of these servers, often of one in whose own queue a request waits."""
        queued = [it for it in servers if self.model.waiting(it.name)]
        return self.chance.choice(queued if queued and self.chance.randrange(2) else servers).name

    def done(self):
        live = self.model.live
        served, told = [it for it in live if it.server], [it for it in live if not it.server and not it.queue]
        return f"{self.moment()} done {self.ticket([(served, 12), (told, 4), (live, 1)])}"

    def fail(self):
        live = self.model.live
        served = [it for it in live if it.server]
        again = [it for it in served if it.ticket == self.failed]
        ticket = self.ticket([(again, 12), (served, 12), (live, 1)])
        self.failed = ticket
        return f"{self.moment()} fail {ticket}"

    def abort(self):
        live = self.model.live
        return f"{self.moment()} abort {self.ticket([([it for it in live if it.queue], 12), (live, 1)])}"

    def ticket(self, groups):
        """A ticket of one of these groups of requests, or sometimes one that is over or was never given."""
        chance, last = self.chance, self.model.tickets
        groups = [(group, weight) for group, weight in groups if group]
        if not groups or chance.randrange(25) == 0:
            return chance.choice([0, 1, last, last + 1, chance.randrange(last + 1), 1 << 40, (1 << 40) - 1, (1 << 32) + last, GREAT])
        group = chance.choices([group for group, _ in groups], [weight for _, weight in groups])[0]
        return chance.choice(group).ticket

    def tick(self):
        """Often just before, at or after the moment by which a request has waited too long."""
        chance, model = self.chance, self.model
        waiting = [it for it in model.live if it.queue]
        if waiting and model.queue_timeout and chance.randrange(4):
            self.clock = min(GREAT, max(0, chance.choice(waiting).since + model.queue_timeout + chance.choice([-1, 0, 0, 1])))
        return f"{self.moment()} tick"

    def check(self):
        """The results of a server's checks stay the same for a while, so that it goes down and comes up again."""
        chance = self.chance
        checked = [it for it in self.model.servers if it.is_checked()]
        name = self.one_with_queue(checked) if checked and chance.randrange(8) else self.name()
        mood = self.mood.get(name, "up")
        if chance.randrange(3) == 0:
            mood = "down" if mood == "up" else "up"
        self.mood[name] = mood
        return f"{self.moment()} check {name} {mood}"

    def limit(self):
        """A closed server is mostly opened again, and limits are near the number that is served."""
        chance = self.chance
        name = self.one_with_queue(self.model.servers) if chance.randrange(4) else self.name()
        server = self.model.server_named(name)
        served = len(self.model.served(server)) if server else 0
        closed = server is not None and server.limit is None
        near = [max(0, served - 1), served, served + 1, 0, 1, 2, 3, 999999999]
        return f"{self.moment()} limit {name} {chance.choice(near + ['closed'] * (2 if closed else 8))}"

    def roll(self):
        return "roll"

    # The form of lines.

    def loosened(self, line):
        """The same line with other blanks, more digits or another end, or lines that don't count before it."""
        chance, words = self.chance, line.split()
        most = 9 if words[0][0].isalpha() or words[1] == "limit" else 18
        words = [self.padded(word, most) for word in words]
        text = words[0] + "".join(chance.choice([" "] * 6 + ["\t", "  ", " \t "]) + word for word in words[1:])
        text = chance.choice([""] * 8 + [" ", "\t"]) + text + chance.choice([""] * 8 + [" ", "\t"]) + chance.choice(["\n", "\n", "\r\n"])
        return chance.choice([""] * 12 + ["\n", "\r\n", " \t\n", "# 0 arrive\n", "#\n", "#\xff\0\r\n"]) + text

    def padded(self, word, most):
        """A number with zeros before it, up to so many digits."""
        sign, digits = ("-", word[1:]) if word.startswith("-") else ("", word)
        if not digits.isdigit() or self.chance.randrange(8) or word in self.names:
            return word
        return sign + "0" * self.chance.randrange(max(1, most + 1 - len(digits))) + digits

    def fill(self, size):
        """Comments make it as large as this."""
        rest = size - sum(map(len, self.lines))
        self.lines.insert(self.chance.randrange(len(self.lines) + 1), "#" + "x" * (rest - 2) + "\n")

    # Faults.

    def put_fault(self):
        """Lines at random places, of which nearly all are faulty there."""
        chance = self.chance
        kinds = [self.faulty] if self.number % 8 == 0 else [self.misspelt, self.misspelt, self.misplaced, self.mutated]
        for _ in range(chance.choice([1, 1, 1, 2])):
            place = chance.randrange(len(self.lines) + 1)
            self.lines[place:place] = chance.choice(kinds)()

    def faulty(self):
        """Each fault has its turn."""
        chance = self.chance
        line = FAULTS[self.number // 8 % len(FAULTS)]
        if chance.randrange(5) == 0:
            line += chance.choice([" ", "\t", "x", *BYTES]) * chance.choice([1, 10, 100, 1000, 10000])
        if chance.randrange(10) == 0:
            line = chance.choice([" ", "\t", "  \t"]) + line.replace(" ", chance.choice(["\t", "  ", " \t"]))
        return [line + chance.choice(["\n", "\n", "\r\n", "\r\r\n"])]

    def misspelt(self):
        """A line with a known word in which a few letters are others, fewer or more."""
        chance = self.chance
        word = chance.choice(WORDS)
        begin = "0 " if word in EVENT_WORDS else ""
        for _ in range(chance.choice([1, 1, 2, 2, 3])):
            place, letter = chance.randrange(len(word) + 1), chance.choice(["x", word[:1].upper(), *LETTERS])
            word = word[:place] + chance.choice(["", letter, letter]) + word[place + chance.choice([0, 1, 1]) :]
        return [begin + word + chance.choice(["", " 1", " a 1"]) + "\n"]

    def misplaced(self):
        """A header line behind a roll, a server's name again, or many servers."""
        chance = self.chance
        again = f"server {chance.choice(self.names)} {self.server_words()}\n"
        header = chance.choice(self.header() or ["redispatch\n"])
        many = [f"server m{number} 0 0 1\n" for number in range(chance.choice([63, 64, 65]))]
        return chance.choice([[again], [again, again], [header], ["roll\n", header], many])

    def mutated(self):
        """One of the lines with a character less, more or changed, or a word less or twice. It may still be right."""
        chance = self.chance
        line = chance.choice(self.lines or ["0 tick\n"])
        words, place, byte = line.split(), chance.randrange(len(line) or 1), chance.choice(BYTES)
        kind = chance.randrange(5)
        if kind < 3:
            return [line[:place] + ["", byte, byte + line[place : place + 1]][kind] + line[place + 1 :]]
        word = chance.randrange(len(words) or 1)
        return [" ".join(words[:word] + words[word + 1 :] if kind == 3 else words[: word + 1] + words[word:]) + "\n"]


def about(bound):
    """Numbers at both ends of a range, within it and beyond."""
    return [0, 1, -1, bound, bound + 1, -bound, -bound - 1, GREAT, -GREAT]
