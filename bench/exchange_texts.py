"""Messages of HTTP/1.1 as a proxy reads and writes them: heads, framings and bodies, as RFC 9112 and docs/FORMATS.md have them.

It is a part of the model of bench/exchanges.py, which is written from these words alone, and knows nothing of the program's own code."""

HEAD_BYTES = 16384
HEAD_FIELDS = 64
CRLF = b"\r\n"
TOKEN = frozenset(b"!#$%&'*+-.^_`|~0123456789ABCDEFGHIJKLMNOPQRSTUVWXYZabcdefghijklmnopqrstuvwxyz")
DIGITS = frozenset(b"0123456789")
HEX = frozenset(b"0123456789abcdefABCDEF")
BLANKS = frozenset(b" \t")
TARGET = frozenset(range(0x21, 0x7F)) | frozenset(range(0x80, 0x100))
TEXT = frozenset(range(0x20, 0x7F)) | frozenset(range(0x80, 0x100)) | frozenset(b"\t")
OF_CONNECTION = {b"connection", b"keep-alive", b"proxy-connection", b"upgrade", b"trailer", b"transfer-encoding", b"content-length"}
OF_REQUEST = OF_CONNECTION | {b"te", b"expect"}
REASONS = {400: b"Bad Request", 502: b"Bad Gateway", 503: b"Service Unavailable"}
LEAVE = b"HTTP/1.1 100 Continue\r\n\r\n"
TO_END = "to the end"
CHUNKED = "in chunks"


class More(Exception):
    """The bytes end within what is read."""


class Bad(Exception):
    """No continuation of the bytes is what is read."""


class Head:
    """A head: its first line's parts, its version, its fields, and how many bytes it has."""

    def __init__(self, parts, minor, fields, length):
        self.parts, self.minor, self.fields, self.length = parts, minor, fields, length

    def values(self, name):
        return [value for named, value in self.fields if named.lower() == name]

    def options(self):
        return {part.lower() for value in self.values(b"connection") for part in parts_of(value)}


class Bytes:
    """Bytes that are read one after the other."""

    def __init__(self, it):
        self.it, self.at = it, 0

    def next(self):
        if self.at == len(self.it):
            raise More
        byte = self.it[self.at]
        self.at += 1
        return byte

    def run(self, allowed):
        """The longest run of such bytes, and the byte behind it."""
        start = self.at
        while True:
            byte = self.next()
            if byte not in allowed:
                return self.it[start : self.at - 1], byte

    def expect(self, text):
        for byte in text:
            if self.next() != byte:
                raise Bad

    def line_end(self, byte):
        """The rest of a line's end that begins with this byte."""
        if byte == 13:
            self.expect(b"\n")
        elif byte != 10:
            raise Bad


def parts_of(value):
    return [part.strip(b" \t") for part in value.split(b",")]


def read_head(data, of_request):
    """The head at the front; None where it isn't whole; Bad where it can't become one."""
    try:
        return read_whole_head(Bytes(data[:HEAD_BYTES]), of_request)
    except More:
        if len(data) >= HEAD_BYTES:
            raise Bad from None
        return None


def read_whole_head(it, of_request):
    byte = it.next()
    while byte in (10, 13):
        it.line_end(byte)
        byte = it.next()
    it.at -= 1
    parts, minor = read_request_line(it) if of_request else read_status_line(it)
    fields = []
    while True:
        byte = it.next()
        if byte in (10, 13):
            it.line_end(byte)
            return Head(parts, minor, fields, it.at)
        it.at -= 1
        fields.append(read_field(it))
        if len(fields) > HEAD_FIELDS:
            raise Bad


def read_request_line(it):
    method, byte = it.run(TOKEN)
    if not method or byte != 32:
        raise Bad
    target, byte = it.run(TARGET)
    if not target or byte != 32:
        raise Bad
    try:
        target.decode()
    except UnicodeDecodeError:
        raise Bad from None
    minor = read_version(it)
    it.line_end(it.next())
    return (method, target), minor


def read_version(it):
    it.expect(b"HTTP/1.")
    byte = it.next()
    if byte not in (48, 49):
        raise Bad
    return byte - 48


def read_status_line(it):
    minor = read_version(it)
    it.expect(b" ")
    status = b""
    for _ in range(3):
        byte = it.next()
        if byte not in DIGITS:
            raise Bad
        status += bytes([byte])
    byte, reason = it.next(), b""
    if byte == 32:
        reason, byte = it.run(TEXT)
    it.line_end(byte)
    return (int(status), reason), minor


def read_field(it):
    name, byte = it.run(TOKEN)
    if not name or byte != 58:
        raise Bad
    value, byte = it.run(TEXT)
    it.line_end(byte)
    return name, value.strip(b" \t")


def is_welcome(head):
    """Whether a whole head is one that the proxy takes."""
    hosts = len(head.values(b"host"))
    method, target = head.parts
    named = hosts == 1 if head.minor else hosts <= 1
    return named and method != b"CONNECT" and b"#" not in target


def stated_length(head):
    """The number of Content-Length; None without one; Bad where it is none, or there are two."""
    parts = [part for value in head.values(b"content-length") for part in parts_of(value)]
    if not parts:
        return None
    if any(not 1 <= len(part) <= 18 or not part.isdigit() for part in parts) or len({int(part) for part in parts}) > 1:
        raise Bad
    return int(parts[0])


def framing(head, unstated):
    """How a body is framed: a number of bytes, in chunks, or as is said where nothing is stated."""
    codings, length = head.values(b"transfer-encoding"), stated_length(head)
    if not codings:
        return unstated if length is None else length
    if length is not None or len(codings) > 1 or codings[0].lower() != b"chunked" or not head.minor:
        raise Bad
    return CHUNKED


def answer_framing(head, method):
    """How an answer's body is framed, and which framing is written; Bad where that can't be told."""
    status = head.parts[0]
    if status == 101 or (not head.minor and head.values(b"transfer-encoding")):
        raise Bad
    if 100 <= status < 200 or status == 204:
        return 0, None
    if method == b"HEAD" or status == 304:
        return 0, stated_length(head)
    body = framing(head, TO_END)
    return body, None if body == TO_END else body


def is_kept(head, name, dropped):
    return name.lower() not in dropped and name.lower() not in head.options()


def kept_fields(head, dropped):
    return [(name, value) for name, value in head.fields if is_kept(head, name, dropped)]


def lines_of(fields):
    return b"".join(name + b": " + value + CRLF for name, value in fields)


def framing_line(stated):
    if stated is None:
        return b""
    return b"Transfer-Encoding: chunked\r\n" if stated == CHUNKED else b"Content-Length: %d\r\n" % stated


def forwarded_head(head, asks, address):
    """A request's head as its server gets it. Nothing is stated of a body that isn't there."""
    fields = kept_fields(head, OF_REQUEST)
    length = head.values(b"content-length") or head.values(b"transfer-encoding")
    text = b" ".join(head.parts) + b" HTTP/1.1\r\n" + lines_of(fields)
    if not any(name.lower() == b"host" for name, _ in fields):
        text += b"Host:\r\n"
    if address:
        text += b"X-Forwarded-For: " + address + CRLF
    text += framing_line(framing(head, 0)) if length else b""
    return text + (CRLF if asks else b"Connection: close\r\n\r\n")


def status_line(head):
    return b"HTTP/1.1 %03d " % head.parts[0] + head.parts[1] + CRLF


def answered_head(head, stated, minor, says):
    """An answer's head as a client of that version gets it."""
    if stated == CHUNKED and not minor:
        stated = None
    word = {"close": b"Connection: close\r\n", "keep-alive": b"Connection: keep-alive\r\n", "persist": b""}[says]
    return status_line(head) + lines_of(kept_fields(head, OF_CONNECTION)) + framing_line(stated) + word + CRLF


def interim_head(head, minor):
    if not minor or head.parts[0] == 100:
        return b""
    return status_line(head) + lines_of(kept_fields(head, OF_CONNECTION)) + CRLF


def refusal(status):
    return b"HTTP/1.1 %d %s\r\nContent-Length: 0\r\nConnection: close\r\n\r\n" % (status, REASONS[status])


class Body:
    """A body as far as it came: what is handed on of it, how many bytes of the input are its own, whether it is whole, and whether it is none."""

    def __init__(self, how, framed):
        self.how, self.framed, self.input = how, framed, b""
        self.text, self.used, self.whole, self.bad = b"", 0, how == 0, False

    def take(self, more):
        """Takes bytes, and answers how many of them are the body's."""
        before = self.used
        self.input += more
        if self.how == CHUNKED:
            self.text, self.used, self.whole, self.bad = read_chunks(self.input, self.framed)
        elif self.how == TO_END:
            self.text, self.used = self.input, len(self.input)
        else:
            self.text = self.input[: self.how]
            self.used, self.whole = len(self.text), len(self.text) == self.how
        self.input = self.input[: self.used]
        return self.used - before


def read_chunks(data, framed):
    """What is handed on of a body in chunks, the bytes that are its own, and whether it is whole, or none."""
    it, text = Bytes(data), []
    try:
        while True:
            size = read_size(it)
            if size == 0:
                break
            text.append(b"%x\r\n" % size if framed else b"")
            text.append(data[it.at : it.at + size])
            if len(data) - it.at < size:
                it.at = len(data)
                raise More
            it.at += size
            it.expect(CRLF)
            text.append(CRLF if framed else b"")
        read_trailers(it)
        text.append(b"0\r\n\r\n" if framed else b"")
        return b"".join(text), it.at, True, False
    except More:
        return b"".join(text), len(data), False, False
    except Bad:
        return b"".join(text), it.at, False, True


def read_size(it):
    start = it.at
    digits, byte = b"", it.next()
    while byte in HEX:
        digits += bytes([byte])
        if len(digits) > 16:
            raise Bad
        byte = it.next()
    if not digits:
        raise Bad
    while byte in BLANKS:
        byte = in_line(it, start)
    if byte == 59:
        while byte != 13:
            if byte == 10:
                raise Bad
            byte = in_line(it, start)
    if byte != 13:
        raise Bad
    it.expect(b"\n")
    return int(digits, 16)


def in_line(it, start):
    """The next byte of a size line, which has 256 bytes at most."""
    byte = it.next()
    if it.at - start > 254 and byte != 13:
        raise Bad
    return byte


def read_trailers(it):
    start = line = it.at
    while True:
        byte = it.next()
        if it.at - start > HEAD_BYTES:
            raise Bad
        if byte == 10:
            if it.it[line : it.at] in (b"\n", CRLF):
                return
            line = it.at
