#!/usr/bin/env python3
"""A client of a node, as a tool has one: python3 client.py --help. Its bytes are wire.py's, its requests tool.py's."""
import argparse
import secrets
import socket
import sys
import time

import tool
import wire

READ_WAIT = 0.05   # how long one read of the socket waits, in seconds
MOST_READS = 200   # how often a client reads at most for one answer
RESEND = 1.0       # after how long a message that isn't answered is sent again, in seconds
KEEP_ALIVE = 10.0  # after how long a client that has nothing to say says so, in seconds


class Closed(Exception):
    """The node ended the session."""


class Session(tool.Tool):
    """A session with a node over a connected UDP socket, from the hello on."""

    def __init__(self, host, port, user, password, log=None):
        self.socket = socket.socket(socket.AF_INET, socket.SOCK_DGRAM)
        self.socket.connect((host, port))
        self.socket.settimeout(READ_WAIT)
        self.log = log
        self.own_id = secrets.randbelow(0xFFFF)
        self.sent = 0      # how many requests were sent: the next message has this index
        self.taken = set()  # the indexes of the node's messages above the first gap that were taken
        self.gap = 0       # the least index of the node's messages that was not taken
        self.told = []     # events that came while a reply was waited for
        try:
            self.open(user, password)
        except Exception:
            self.socket.close()
            raise

    def open(self, user, password):
        challenge = self.ask(wire.write_message(
            wire.NO_ID, wire.HELLO, {"version": wire.VERSION, "remote_id": self.own_id}), wire.CHALLENGE)
        self.node_id = challenge["remote_id"]
        proof = wire.digest(user, password, challenge["nonce"])
        self.ask(wire.write_message(
            self.node_id, wire.AUTHENTICATE, {"user": user, "digest": proof}), wire.WELCOME)

    def show(self, arrow, text):
        if self.log:
            print(arrow, text.hex(" "), file=self.log)

    def send(self, text):
        self.show(">", text)
        self.socket.send(text)

    def read(self):
        """A message to this session, or None where none came in one wait."""
        try:
            text = self.socket.recv(wire.LONGEST_DATAGRAM + 1)
        except (socket.timeout, ConnectionRefusedError):
            return None
        self.show("<", text)
        try:
            message = wire.read_message(text)
        except wire.Malformed:
            return None
        to, _, kind, fields, _ = message
        if to != self.own_id:
            return None
        if kind == wire.CLOSE:
            raise Closed(wire.ERRORS.get(fields.get("error"), "closed"))
        return message

    def answers(self, text):
        """Sends a message, and again while none answers it, and gives the messages that come."""
        sent = None
        for _ in range(MOST_READS):
            if sent is None or time.monotonic() - sent >= RESEND:
                self.send(text() if callable(text) else text)
                sent = time.monotonic()
            message = self.read()
            if message:
                yield message
        raise TimeoutError("no answer")

    def ask(self, text, kind):
        """The fields of the next message of that kind."""
        for _, _, came, fields, _ in self.answers(text):
            if came == kind:
                return fields
        raise TimeoutError("no answer")

    def acks(self):
        """What is acknowledged: everything below the first gap, and a bit for each one above it."""
        fields = {"ack": (self.gap - 1) % 65536}
        if self.taken:
            bits = sum(1 << (index - self.gap) for index in self.taken)
            fields["ack_more"] = bits.to_bytes(4, "little")
        return fields

    def take(self, number):
        """Whether a message of the node with that number is new. It is taken then."""
        index = self.gap + (number - self.gap + 32768) % 65536 - 32768
        if index < self.gap or index >= self.gap + 31 or index in self.taken:
            return False
        self.taken.add(index)
        while self.gap in self.taken:
            self.taken.remove(self.gap)
            self.gap += 1
        return True

    def new_payload(self, message):
        """The payload of a datagram message that is new, or None. An event is kept for `events`, and is None here."""
        _, number, kind, _, payload = message
        if kind != wire.DATAGRAM or not self.take(number):
            return None
        if payload[:1] == b"e":
            self.told.append(tool.event_of(payload))
            return None
        return payload

    def request(self, letter, body=b""):
        """The body of the reply to a request. Events that come meanwhile are kept for `events`."""
        number = self.sent
        self.sent += 1
        payload = letter.encode() + bytes([number % 256]) + body
        text = lambda: wire.write_message(self.node_id, wire.DATAGRAM, self.acks(), number % 65536, payload)
        for message in self.answers(text):
            reply = self.new_payload(message)
            if reply is not None:
                return wire.body_of(payload, reply)
        raise TimeoutError("no answer")

    def keep_alive(self):
        """Says what was taken. The node answers by a keepAlive, which is not answered again."""
        self.send(wire.write_message(self.node_id, wire.KEEP_ALIVE, self.acks()))

    def events(self, seconds):
        """Gives the events that came, and those that come within so many seconds. Each is acknowledged as it comes."""
        end = time.monotonic() + seconds
        spoke = time.monotonic()
        while True:
            while self.told:
                yield self.told.pop(0)
            now = time.monotonic()
            if now >= end:
                return
            message = self.read()
            if message and message[2] == wire.DATAGRAM:
                self.new_payload(message)
            elif now - spoke < KEEP_ALIVE:
                continue
            self.keep_alive()
            spoke = now

    def close(self):
        """Says that everything was taken, and ends the session. There is no answer."""
        self.keep_alive()
        self.send(wire.write_message(self.node_id, wire.CLOSE))
        self.socket.close()


# What a command of the command line is called, the words behind it, and what it does and prints.
COMMANDS = {}


def command(name, words, least, most):
    """Puts a function in the table, under that name, for `least` to `most` words behind it."""
    def put(function):
        COMMANDS[name] = (words, range(least, most + 1), function)
        return function
    return put


MANY = 2 * wire.LONGEST_DATAGRAM  # more words than a datagram has room for values


def values(words):
    """The bytes of values that words spell, each as a type and a value."""
    if len(words) % 2:
        raise SystemExit(f"a type without a value: {words[-1]}")
    return b"".join(wire.write_value(kind, text) for kind, text in zip(words[::2], words[1::2]))


def place(words):
    return int(words[0]), int(words[1])


def told(component, letter, text):
    """A part as a line: the id, the letter and the bytes."""
    return f"{component} {letter} {text.hex(' ')}".rstrip()


@command("version", "", 0, 0)
def version(session):
    return "\n".join(f"{name} {checksum & 0xFFFFFFFF:08x}" for name, checksum in session.versions())


@command("read", "ID SLOT TYPE", 3, 3)
def read(session, component, slot, kind):
    return session.read_slot(int(component), int(slot), kind)


@command("write", "ID SLOT TYPE VALUE", 4, 4)
def write(session, component, slot, kind, value):
    session.write_slot(int(component), int(slot), kind, value)
    return "written"


@command("part", "ID LETTER", 2, 2)
def part(session, component, letter):
    return told(int(component), letter, session.part(int(component), letter))


@command("add", "PARENT KIT TYPE NAME [TYPE VALUE ..]", 4, MANY)
def add(session, parent, kit, number, name, *words):
    return f"added {session.add(int(parent), int(kit), int(number), name, values(words))}"


@command("delete", "ID", 1, 1)
def delete(session, component):
    session.delete(int(component))
    return "deleted"


@command("rename", "ID NAME", 2, 2)
def rename(session, component, name):
    session.rename(int(component), name)
    return "renamed"


@command("reorder", "ID CHILD ..", 1, MANY)
def reorder(session, component, *children):
    session.reorder(int(component), [int(child) for child in children])
    return "reordered"


@command("link", "ID SLOT ID SLOT", 4, 4)
def link(session, *words):
    session.link(place(words), place(words[2:]))
    return "linked"


@command("unlink", "ID SLOT ID SLOT", 4, 4)
def unlink(session, *words):
    session.unlink(place(words), place(words[2:]))
    return "unlinked"


@command("invoke", "ID SLOT [TYPE VALUE]", 2, 4)
def invoke(session, component, slot, *words):
    session.invoke(int(component), int(slot), values(words))
    return "invoked"


@command("clear", "ID", 1, 1)
def clear(session, component):
    session.clear(int(component))
    return "cleared"


@command("subscribe", "ID LETTERS", 2, 2)
def subscribe(session, component, letters):
    session.subscribe(int(component), letters)
    return "subscribed"


@command("unsubscribe", "ID LETTERS", 2, 2)
def unsubscribe(session, component, letters):
    session.unsubscribe(int(component), letters)
    return "unsubscribed"


@command("events", "SECONDS", 1, 1)
def events(session, seconds):
    return "\n".join(told(*event) for event in session.events(float(seconds)))


@command("save", "", 0, 0)
def save(session):
    session.save()
    return "saved"


HELP = (
    "commands, parted by commas: " + "; ".join(f"{name} {words}".strip() for name, (words, _, _) in COMMANDS.items())
    + ". A TYPE of a value is bool, byte, short, int, long or buf; the KIT and the TYPE of an add are their numbers. "
    "LETTERS are of the parts t, c, r and l; a LETTER may be f too. An event is printed as its id, its part's letter "
    "and the part's bytes."
)


def do(session, words):
    """Does one command, and gives what it prints."""
    _, counts, function = COMMANDS.get(words[0] if words else "", ("", (), None))
    if len(words) - 1 not in counts:
        raise SystemExit(f"no command: {' '.join(words)}")
    return function(session, *words[1:])


def main():
    parser = argparse.ArgumentParser(description=__doc__, epilog=HELP)
    parser.add_argument("--host", default="127.0.0.1")
    parser.add_argument("--port", type=int, default=1876)
    parser.add_argument("--user", required=True)
    parser.add_argument("--password", required=True)
    parser.add_argument("--bytes", action="store_true", help="show each datagram on standard error")
    parser.add_argument("commands", nargs="+")
    asked = parser.parse_args()
    try:
        session = Session(asked.host, asked.port, asked.user, asked.password, sys.stderr if asked.bytes else None)
        for words in " ".join(asked.commands).split(","):
            print(do(session, words.split()))
        session.close()
    except (Closed, wire.Refused, wire.Malformed, TimeoutError) as why:
        sys.exit(f"{type(why).__name__.lower()}: {why}")


if __name__ == "__main__":
    main()
