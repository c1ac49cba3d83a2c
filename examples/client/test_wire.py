#!/usr/bin/env python3
"""The client against the bytes that docs/SESSIONS.md writes down, and against a node of a few lines.

Runs by itself: python3 examples/client/test_wire.py"""
import pathlib
import re
import socket
import threading
import unittest

import client
import wire

PAGE = (pathlib.Path(__file__).resolve().parents[2] / "docs" / "SESSIONS.md").read_text()
ROW = re.compile(r"^\| `([0-9a-f ]+)`( and ten bytes| and twenty bytes)? \| (.*) \|$", re.M)
TALK = re.compile(r"^\| `([0-9a-f ]+)` \| `([0-9a-f ]+)` \| (.*) \|$", re.M)
NONCE = bytes.fromhex("5d13289f92b32bf4cbd3")
DIGEST = bytes.fromhex("c34f6a99224685e6d5db5b37c241ff7c896b42fa")


class Messages(unittest.TestCase):
    def test_rows_of_messages(self):
        """Each message of the page is read, and written again byte by byte."""
        kinds = ("hello", "challenge", "authenticate", "welcome", "keepAlive", "the same", "datagram", "close")
        rows = [row for row in ROW.findall(PAGE) if row[2].startswith(kinds)]
        self.assertGreaterEqual(len(rows), 9)
        for digits, more, what in rows:
            text = bytes.fromhex(digits) + {"": b"", " and ten bytes": NONCE, " and twenty bytes": DIGEST}[more]
            to, number, kind, fields, payload = wire.read_message(text)
            self.assertEqual(wire.write_message(to, kind, fields, number, payload), text, what)

    def test_worked_digest(self):
        self.assertEqual(wire.digest("ann", "secret", NONCE), DIGEST)

    def test_malformed(self):
        for digits in ("ffffffff", "ffffffff00", "ffffffff80", "0001ffff41", "0001ffff4105", "0001ffff40ff",
                       "0001ffff4116616263", "0001ffff4113050102"):
            with self.assertRaises(wire.Malformed, msg=digits):
                wire.read_message(bytes.fromhex(digits))


class Requests(unittest.TestCase):
    def test_rows_of_requests(self):
        """Each reply of the page is one to its request: a body, or a refusal with the cause that stands there."""
        rows = TALK.findall(PAGE)
        self.assertGreaterEqual(len(rows), 22)
        for request, reply, what in rows:
            request, reply = bytes.fromhex(request), bytes.fromhex(reply)
            cause = re.search(r"refused: `([a-z ]+)`", what)
            if cause and len(request) > 1:
                with self.assertRaises(wire.Refused) as caught:
                    wire.body_of(request, reply)
                self.assertEqual(str(caught.exception), cause[1])
            elif not cause:
                self.assertEqual(wire.body_of(request, reply), reply[2:], what)
        with self.assertRaises(wire.Malformed):
            wire.body_of(b"v\x01", b"V\x02\x00")

    def test_kits(self):
        reply = bytes.fromhex("561002737973003600e4e46d61746800ad0f334b")
        self.assertEqual([(n, c & 0xFFFFFFFF) for n, c in wire.kits_of(reply[2:])],
                         [("sys", 0x3600E4E4), ("math", 0xAD0F334B)])

    def test_values(self):
        rows = (
            ("int", "7", "00000007"), ("int", "-1", "ffffffff"), ("byte", "255", "ff"), ("short", "258", "0102"),
            ("long", "-2", "fffffffffffffffe"), ("bool", "true", "01"), ("bool", "null", "02"),
            ("buf", "0aff", "00020aff"), ("buf", "", "0000"),
        )
        for kind, words, digits in rows:
            self.assertEqual(wire.write_value(kind, words), bytes.fromhex(digits))
            self.assertEqual(wire.read_value(kind, bytes.fromhex(digits)), words)


class Acks(unittest.TestCase):
    def session(self):
        session = object.__new__(client.Session)
        session.gap, session.taken = 0, set()
        return session

    def test_windows(self):
        """What the page says of numbers: 0, 1 and 3 are acknowledged as 1 and 02 00 00 00; each is new once."""
        session = self.session()
        self.assertEqual(session.acks(), {"ack": 65535})
        came = [session.take(number) for number in (0, 1, 3, 3, 34, 32768)]
        self.assertEqual(came, [True, True, True, False, False, False])
        self.assertEqual(session.acks(), {"ack": 1, "ack_more": bytes.fromhex("02000000")})
        self.assertTrue(session.take(2))
        self.assertEqual(session.acks(), {"ack": 3})

    def test_numbers_go_round(self):
        session = self.session()
        session.gap = 65535
        came = [session.take(number) for number in (65535, 0, 65535, 32)]
        self.assertEqual(came, [True, True, False, False])


class Node(threading.Thread):
    """A node of a few lines, with one int slot. It loses the first request, and sends an event before each reply."""

    def __init__(self):
        super().__init__(daemon=True)
        self.socket = socket.socket(socket.AF_INET, socket.SOCK_DGRAM)
        self.socket.bind(("127.0.0.1", 0))
        self.socket.settimeout(10)
        self.port = self.socket.getsockname()[1]
        self.heard = []

    def run(self):
        with self.socket:
            self.answer()

    def answer(self):
        value, posted, lost = b"\0\0\0\5", 0, False
        while True:
            text, peer = self.socket.recvfrom(600)
            self.heard.append(text)
            _, number, kind, fields, payload = wire.read_message(text)
            answer = None
            if kind == wire.HELLO:
                own = fields["remote_id"]
                challenge = {"remote_id": 0, "algorithm": "SHA-1", "nonce": NONCE}
                answer = wire.write_message(own, wire.CHALLENGE, challenge)
            elif kind == wire.AUTHENTICATE and fields["digest"] == DIGEST:
                answer = wire.write_message(own, wire.WELCOME)
            elif kind == wire.AUTHENTICATE:
                answer = wire.write_message(own, wire.CLOSE, {"error": 0xE4})
            elif kind == wire.DATAGRAM and not lost:
                lost = True
            elif kind == wire.DATAGRAM:
                event = wire.write_message(own, wire.DATAGRAM, {"ack": number}, posted, b"e\xff\0\1f\0")
                self.socket.sendto(event, peer)
                if payload[:1] == b"w":
                    value = payload[5:]
                body = {b"r": payload[2:5] + value, b"v": b"\1sys\0" + bytes.fromhex("3600e4e4")}.get(payload[:1], b"")
                reply = payload[:1].upper() + payload[1:2] + body
                if payload[:1] == b"i":
                    reply = b"!" + payload[1:2] + b"save device\0"
                answer = wire.write_message(own, wire.DATAGRAM, {"ack": number}, posted + 1, reply)
                posted += 2
            elif kind == wire.CLOSE:
                return
            if answer:
                self.socket.sendto(answer, peer)
            if kind == wire.AUTHENTICATE and fields["digest"] != DIGEST:
                return


class Sessions(unittest.TestCase):
    def test_a_session(self):
        node = Node()
        node.start()
        session = client.Session("127.0.0.1", node.port, "ann", "secret")
        self.assertEqual(client.do(session, ["version"]), "sys 3600e4e4")
        self.assertEqual(client.do(session, "read 1 1 int".split()), "5")
        self.assertEqual(client.do(session, "write 1 1 int -7".split()), "written")
        self.assertEqual(client.do(session, "read 1 1 int".split()), "-7")
        with self.assertRaises(wire.Refused):
            client.do(session, ["save"])
        self.assertEqual(client.do(session, ["events", "0"]), "\n".join(["1 f 00"] * 5))
        session.close()
        node.join(10)
        self.assertFalse(node.is_alive())
        numbers = [wire.read_message(text)[1] for text in node.heard if text[4] >> 4 == wire.DATAGRAM]
        self.assertEqual(numbers, [0, 0, 1, 2, 3, 4], "the lost one is sent again under its number")
        keep_alive = wire.read_message(node.heard[-2])
        self.assertEqual(keep_alive[2:4], (wire.KEEP_ALIVE, {"ack": 9}))

    def test_a_wrong_password(self):
        node = Node()
        node.start()
        with self.assertRaises(client.Closed):
            client.Session("127.0.0.1", node.port, "ann", "wrong")


if __name__ == "__main__":
    unittest.main()
