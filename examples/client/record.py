"""Records (docs/FORMATS.md): what a client sends to a node, and when the node's clock ticks, made without a node."""
import hashlib
import struct

import tool
import wire

HOST, PORT = bytes((127, 0, 0, 1)), 2001  # where the datagrams of a record come from
PLACES = 4095                             # node ids begin anew after so many sessions


def nonce(secret, made):
    """The nonce of a node's session before which so many were made."""
    return hashlib.sha1(secret[:20] + struct.pack(">I", made)).digest()[:10]


class Recorder(tool.Tool):
    """A client whose requests go into a record. `taken` are the ids that live where the replay begins.

    It has one session at a time, and a node that made none yet. It believes that each request is done, that an add
    gives the least free id, and it subscribes nothing: so the node's message k is the reply to its request k. Before
    a tick it ends its session, and a request behind it begins another one."""

    def __init__(self, user, password, secret, own_id=1, taken=(tool.APP,)):
        self.user, self.password, self.secret, self.own_id = user, password, secret, own_id
        self.text, self.made, self.sent, self.ids = b"", 0, None, set(taken)

    def datagram(self, text):
        self.text += b"d" + HOST + struct.pack(">HH", PORT, len(text)) + text

    def begin(self):
        """A hello, and an authenticate by the nonce that the node's secret gives."""
        self.node_id = self.made % PLACES * 16
        self.datagram(wire.write_message(
            wire.NO_ID, wire.HELLO, {"version": wire.VERSION, "remote_id": self.own_id}))
        proof = wire.digest(self.user, self.password, nonce(self.secret, self.made))
        self.datagram(wire.write_message(
            self.node_id, wire.AUTHENTICATE, {"user": self.user, "digest": proof}))
        self.made += 1
        self.sent = 0

    def acks(self):
        """All replies so far came."""
        return {"ack": (self.sent - 1) % 65536}

    def request(self, letter, body=b""):
        if letter in "crvs":
            raise ValueError(f"what comes of it is in no record: {letter}")
        if self.sent is None:
            self.begin()
        payload = letter.encode() + bytes([self.sent % 256]) + body
        self.datagram(wire.write_message(self.node_id, wire.DATAGRAM, self.acks(), self.sent % 65536, payload))
        self.sent += 1
        return self.added() if letter == "a" else b""

    def added(self):
        """The reply's body to an add: the least free id."""
        new = next(number for number in range(len(self.ids) + 1) if number not in self.ids)
        self.ids.add(new)
        return struct.pack(">H", new)

    def delete(self, component):
        raise ValueError("which ids a delete frees a record does not know")

    def close(self):
        """The last replies are acknowledged, and the session ends."""
        if self.sent is not None:
            self.datagram(wire.write_message(self.node_id, wire.KEEP_ALIVE, self.acks()))
            self.datagram(wire.write_message(self.node_id, wire.CLOSE))
            self.sent = None

    def tick(self, moment):
        """A tick at that moment, in nanoseconds."""
        self.close()
        self.text += b"t" + struct.pack(">q", moment)

    def whole(self):
        """The record's bytes, with the end mark."""
        self.close()
        return self.text + b"z"
