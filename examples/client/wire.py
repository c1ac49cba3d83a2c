"""Messages of a session and requests as bytes, both ways (docs/SESSIONS.md). No socket and no clock in here."""
import hashlib
import struct

VERSION = 0x0100
NO_ID = 0xFFFF
LONGEST_DATAGRAM = 512

HELLO, CHALLENGE, AUTHENTICATE, WELCOME, KEEP_ALIVE, DATAGRAM, CLOSE = range(1, 8)

# a field's name, and its byte; the low two bits say what stands behind it
FIELDS = {
    "version": 0x05, "remote_id": 0x09, "algorithm": 0x0E, "nonce": 0x13, "user": 0x16, "digest": 0x1B,
    "ack": 0x25, "ack_more": 0x2B, "error": 0x35,
}
NAMES = {byte: name for name, byte in FIELDS.items()}

ERRORS = {
    0xE1: "another version", 0xE2: "no place for a session", 0xE3: "another digest algorithm",
    0xE4: "the user isn't known, or the password isn't right", 0xE5: "silence, or a message never acknowledged",
}


class Malformed(Exception):
    """Bytes that are no message, or no reply."""


class Reader:
    """The bytes that are left of a text."""

    def __init__(self, left):
        self.left = bytes(left)

    def take(self, count):
        if len(self.left) < count:
            raise Malformed("cut off")
        front, self.left = self.left[:count], self.left[count:]
        return front

    def number(self, size, signed=False):
        return int.from_bytes(self.take(size), "big", signed=signed)

    def text(self):
        front, zero, self.left = self.left.partition(b"\0")
        if not zero:
            raise Malformed("a text without an end")
        return front.decode("ascii")


def put_field(name, value):
    """The bytes of a field."""
    byte = FIELDS[name]
    form = byte & 3
    if form == 1:
        return struct.pack(">BH", byte, value)
    if form == 2:
        return bytes([byte]) + value.encode("ascii") + b"\0"
    return bytes([byte, len(value)]) + value


def write_message(to, kind, fields=(), number=NO_ID, payload=b""):
    """The bytes of a message. `fields` has names with values; they are sent in the order of their bytes."""
    ordered = sorted(dict(fields).items(), key=lambda field: FIELDS[field[0]])
    head = struct.pack(">HHB", to, number, kind << 4 | len(ordered))
    return head + b"".join(put_field(name, value) for name, value in ordered) + payload


def read_message(text):
    """The receiver, the number, the kind, the fields that are known, and the payload of a message."""
    reader = Reader(text)
    to, number, head = reader.number(2), reader.number(2), reader.number(1)
    kind, fields = head >> 4, {}
    for _ in range(head & 15):
        byte = reader.number(1)
        form = byte & 3
        if form == 0:
            value = None
        elif form == 1:
            value = reader.number(2)
        elif form == 2:
            value = reader.text()
        else:
            value = reader.take(reader.number(1))
        if byte in NAMES:
            fields.setdefault(NAMES[byte], value)
    if not HELLO <= kind <= CLOSE or (reader.left and kind != DATAGRAM):
        raise Malformed("no message")
    return to, number, kind, fields, reader.left


def digest(user, password, nonce):
    """What shows that the user's password is known: SHA-1 of the credential and the nonce."""
    credential = hashlib.sha1(f"{user}:{password}".encode()).digest()
    return hashlib.sha1(credential + nonce).digest()


# The types of values, and how many bytes one has. A `buf` has two bytes that say how many follow, and these.
SIZES = {"bool": 1, "byte": 1, "short": 2, "int": 4, "long": 8}
TRUTHS = {"false": 0, "true": 1, "null": 2}


def write_value(kind, text):
    """The bytes of a value of that type, which the words of a command line spell; of a `buf` hexadecimal digits."""
    if kind == "buf":
        return struct.pack(">H", len(text) // 2) + bytes.fromhex(text)
    if kind == "bool":
        return bytes([TRUTHS[text]])
    return int(text).to_bytes(SIZES[kind], "big", signed=kind in ("int", "long"))


def take_value(kind, reader):
    """The next value, of that type, as words."""
    if kind == "buf":
        return reader.take(reader.number(2)).hex()
    number = reader.number(SIZES[kind], signed=kind in ("int", "long"))
    if kind == "bool":
        return next((word for word, byte in TRUTHS.items() if byte == number), "null")
    return str(number)


def read_value(kind, left):
    """A value of that type, as words, where the bytes are that value and nothing else."""
    reader = Reader(left)
    value = take_value(kind, reader)
    if reader.left:
        raise Malformed("a value of another size")
    return value


def kits_of(body):
    """The kits of a reply to `v`: each name with its checksum."""
    reader = Reader(body)
    kits = [(reader.text(), reader.number(4, signed=True)) for _ in range(reader.number(1))]
    return kits


class Refused(Exception):
    """A request that the node refused, with the cause."""


def body_of(request, reply):
    """The body of the reply to a request."""
    if reply[:2] == b"!" + request[1:2]:
        raise Refused(Reader(reply[2:]).text())
    if reply[:2] != request[:1].upper() + request[1:2]:
        raise Malformed("a reply to another request")
    return reply[2:]
