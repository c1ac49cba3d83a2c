#!/usr/bin/env python3
"""The bytes of docs/GUIDE_TOOLS.md, and the client that it prints, against the bytes of stored rows.

No node is run here: the client is spoken to by a few lines.

Runs by itself: python3 examples/client/test_guide.py"""
import contextlib
import io
import pathlib
import re
import socket
import threading
import unittest
from unittest import mock

import client as words_client
import test_tool

ROOT = pathlib.Path(__file__).resolve().parents[2]
PAGE = (ROOT / "docs" / "GUIDE_TOOLS.md").read_text()
CLIENT = re.search(r"```python\n(.*?)```", PAGE, re.S)[1]
# What goes over the port stands behind the client, and is not asked for in rows.
BEFORE, BEHIND = PAGE.split("```python", 1)
FUNCTIONS, USE = CLIENT.split("session = ", 1)
NONCE = bytes.fromhex("5d13289f92b32bf4cbd3")


def digits(text):
    """The digits of a text of rows, whose characters in quotes are a text with a 0 behind it."""
    words = re.sub(r"'(\w+)'", lambda quoted: quoted[1].encode().hex() + "00", text)
    return re.sub(r"\s", "", words)


ROWS = [
    digits(path.read_text())
    for crate in ("wire_rows", "node_rows", "program_rows")
    for path in sorted((ROOT / "crates" / crate / "data").glob("*.rows"))
]


SESSIONS = digits((ROOT / "docs" / "SESSIONS.md").read_text())


def stands_in_rows(text):
    return any(text in rows for rows in ROWS)


def client():
    """What the page's client defines, before its use."""
    names = {"__name__": "small"}
    exec(FUNCTIONS, names)
    return names


class Page(unittest.TestCase):
    def test_bytes_stand_in_rows(self):
        """Each bytes of the page, four or more, stand in rows; those behind the client are test_table's."""
        found = [digits(text) for text in re.findall(r"`((?:[0-9a-f]{2} ){3,}[0-9a-f]{2})`", BEFORE)]
        self.assertGreater(len(found), 100)
        self.assertEqual([text for text in found if not stands_in_rows(text)], [])

    def test_messages_in_one_piece(self):
        """Two bytes that stand side by side, as a head and a payload do, stand so in rows."""
        pairs = re.findall(r"\| `([0-9a-f ]{23,})` `((?:[0-9a-f]{2} ?)+)` \|", BEFORE)
        self.assertGreater(len(pairs), 12)
        for head, payload in pairs:
            self.assertTrue(stands_in_rows(digits(head + payload)), head + payload)

    def test_requests_with_replies(self):
        """The table of one of each is one row, in its order."""
        table = PAGE[PAGE.index("### One of each"):PAGE.index("### The refusals")]
        rows = re.findall(r"^\| `([0-9a-f ]+)` \| `([0-9a-f ]+)`(?:(?:,| and) `([0-9a-f ]+)`)? \|", table, re.M)
        self.assertEqual(len(rows), 19)
        requests = ";".join(digits(request) for request, _, _ in rows)
        replies = [digits(reply + more) for _, reply, more in rows]
        line = next(line for line in (ROOT / "crates/node_rows/data/requests.rows").read_text().split("\n")
                    if requests in digits(line))
        came = [digits(word.split()[0]) for word in line.split(" | ")[3].split("; ")]
        self.assertEqual(replies, came)

    def test_words(self):
        """The words of client.py come to the requests of the same table, in its order."""
        table = PAGE[PAGE.index("### One of each"):PAGE.index("### The refusals")]
        rows = re.findall(r"^\| `([0-9a-f ]+)` \| `([0-9a-f ]+)`(?:(?:,| and) `([0-9a-f ]+)`)? \|", table, re.M)
        page = test_tool.Page([(bytes.fromhex(request), bytes.fromhex(reply + more)) for request, reply, more in rows])
        self.assertEqual(len(rows), len(WORDS))
        for words, printed in WORDS:
            self.assertEqual(words_client.do(page, words.split()), printed)

    def test_refusals(self):
        """Each example of a refusal has, in rows, the reply with the text of its number."""
        texts = dict(re.findall(r"\| (\d+) \| `([a-z ]+)` (?=\|)", PAGE))
        rows = re.findall(r"^\| (\d+) \| `([0-9a-f ]+)` \|", PAGE, re.M)
        self.assertEqual([int(number) for number, _ in rows], list(range(1, 27)))
        for number, request in rows:
            reply = "21" + digits(request)[2:4] + texts[number].encode().hex() + "00"
            self.assertTrue(stands_in_rows(digits(request)) and stands_in_rows(reply), (number, request, reply))


# The table of one of each as words of the client, and what it prints.
WORDS = (
    ("add 0 1 1 g int 5 bool true buf 6869", "added 1"),
    ("part 1 t", "1 t 01 01 67 00 00 00 ff 00"),
    ("part 1 c", "1 c 00 00 00 05 01 00 02 68 69"),
    ("part 1 r", "1 r 07 01 2c 00 00 00 00 00 00 00 00 00 00 00 00 02 00 03 61 62 00"),
    ("part 1 l", "1 l ff ff"),
    ("part 1 f", "1 f 00"),
    ("invoke 1 9", "invoked"),
    ("read 1 5 int", "10"),
    ("link 1 3 1 5", "linked"),
    ("part 1 l", "1 l 00 01 03 00 01 05 ff ff"),
    ("unlink 1 3 1 5", "unlinked"),
    ("rename 1 h", "renamed"),
    ("reorder 0 1", "reordered"),
    ("subscribe 1 tcrl", "subscribed"),
    ("unsubscribe 1 tr", "unsubscribed"),
    ("version", "sys 3600e4e4\nforms 40694739"),
    ("write 1 5 int 7", "written"),
    ("clear 1", "cleared"),
    ("delete 1", "deleted"),
)


class Client(unittest.TestCase):
    def test_messages(self):
        names = client()
        write, u2 = names["write"], names["u2"]
        proof = names["digest"]("ann", "secret", NONCE)
        self.assertEqual(proof.hex(), "c34f6a99224685e6d5db5b37c241ff7c896b42fa")
        for text in (
            write(0xFFFF, names["HELLO"], b"\x05\x01\x00", b"\x09" + u2(0x1234)),
            write(0, names["AUTHENTICATE"], b"\x16ann\0", b"\x1b\x14" + proof),
            write(0, names["DATAGRAM"], b"\x25" + u2(0xFFFF), number=0, payload=b"v\x09"),
            write(0, names["KEEP_ALIVE"], b"\x25" + u2(0)),
            write(0, names["CLOSE"]),
        ):
            self.assertTrue(stands_in_rows(text.hex()), text.hex(" "))

    def test_read(self):
        read = client()["read"]
        challenge = "1234ffff230900000e5348412d3100130a5d13289f92b32bf4cbd3"
        wanted = {0x09: b"\0\0", 0x0E: b"SHA-1\0", 0x13: NONCE}
        self.assertEqual(read(bytes.fromhex(challenge)), (0x1234, 0xFFFF, 2, wanted, b""))
        self.assertEqual(read(bytes.fromhex("1234ffff40")), (0x1234, 0xFFFF, 4, {}, b""))
        self.assertEqual(read(bytes.fromhex("1234ffff713500e5")), (0x1234, 0xFFFF, 7, {0x35: b"\0\xe5"}, b""))
        reply = read(bytes.fromhex("123400006225ffff2b04020000005802"))
        self.assertEqual(reply, (0x1234, 0, 6, {0x25: b"\xff\xff", 0x2B: b"\2\0\0\0"}, b"X\2"))

    def test_run(self):
        """The whole client, spoken to by a node of a few lines."""
        node = Node()
        shown = self.run_against(node)
        self.assertEqual(shown, KITS + "component 2 part t 01 01 61 00 00 00 ff 00\n")
        self.assertEqual(len(node.payloads), 5)
        for payload in node.payloads:
            self.assertTrue(stands_in_rows(payload) or payload in SESSIONS, payload)
        self.assertEqual(node.first, "000000006125ffff7600")
        self.assertTrue(stands_in_rows(node.first))
        self.assertEqual(node.numbers, [0, 0, 1, 2, 3, 4], "the first one is lost, and sent again under its number")
        self.assertEqual(node.acks, [0, 1, 2, 3, 3, 4, 5], "five replies and an event, which overtook the last reply")

    def test_table(self):
        """The whole client, spoken to as the table behind it says: it sends just what stands there."""
        node = Table()
        shown = self.run_against(node)
        self.assertEqual([(came, wanted) for came, wanted in node.heard if came != wanted], [])
        self.assertEqual(len(node.heard), 16)
        self.assertEqual(shown.count("\n"), 5, "the kits, and four events")

    def run_against(self, node):
        """Runs the page's client until the node closes its session; what it prints."""
        node.start()
        names, shown = client(), io.StringIO()
        use = "session = " + USE.replace("1876", str(node.port))
        with contextlib.ExitStack() as held:
            held.enter_context(mock.patch("secrets.randbelow", return_value=0x1234))
            held.enter_context(mock.patch("sys.argv", ["small.py", "ann", "secret"]))
            held.enter_context(contextlib.redirect_stdout(shown))
            ended = held.enter_context(self.assertRaises(SystemExit))
            exec(use, names)
        names["session"].socket.close()
        node.join(10)
        node.socket.close()
        self.assertEqual(str(ended.exception), "closed: 00e5")
        return shown.getvalue()


KITS = "kits 02 73 79 73 00 36 00 e4 e4 6d 61 74 68 00 ad 0f 33 4b\n"
SCHEMA = "02737973003600e4e46d61746800ad0f334b"
EVENT = "65ff000274010161000000ff00"


class Peer(threading.Thread):
    """Whom the client speaks to, at a port of its own."""

    def __init__(self):
        super().__init__(daemon=True)
        self.socket = socket.socket(socket.AF_INET, socket.SOCK_DGRAM)
        self.socket.bind(("127.0.0.1", 0))
        self.socket.settimeout(5)
        self.port = self.socket.getsockname()[1]

    def hear(self):
        text, self.peer = self.socket.recvfrom(600)
        return text

    def say(self, text):
        self.socket.sendto(bytes.fromhex(text), self.peer)


class Node(Peer):
    """A node of a few lines: it answers in the bytes of rows, loses the first request, and gives an event twice."""

    def __init__(self):
        super().__init__()
        self.payloads, self.numbers, self.acks, self.posted, self.added, self.first = [], [], [], 0, 0, None

    def run(self):
        while not self.answer():
            pass

    def post(self, payload, ahead=0):
        self.say(f"1234{self.posted + ahead:04x}61250000" + payload)

    def answer(self):
        text = self.hear()
        kind, payload = text[4] >> 4, text[8:]
        if kind == 1:
            assert stands_in_rows(text.hex())
            self.say("1234ffff230900000e5348412d3100130a5d13289f92b32bf4cbd3")
        elif kind == 3:
            assert stands_in_rows(text.hex())
            self.say("1234ffff40")
        elif kind == 5:
            self.acks.append(int.from_bytes(text[6:8], "big"))
            if self.acks[-1] == 5:
                self.say("1234ffff713500e5")
                return True
        elif kind == 6:
            self.numbers.append(int.from_bytes(text[2:4], "big"))
            self.first = self.first or text.hex()
            if len(self.numbers) > 1:
                self.reply(payload)
        return False

    def reply(self, payload):
        letter = chr(payload[0])
        self.payloads.append(payload.hex())
        self.added += letter == "a"
        body = {"v": SCHEMA, "a": f"{self.added:04x}"}.get(letter, "")
        if letter == "s":
            self.post(EVENT, ahead=1)  # it overtakes the reply, and is not taken
        self.post(letter.upper().encode().hex() + f"{payload[1]:02x}" + body)
        self.posted += 1
        if letter == "s":
            self.post(EVENT)
            self.post(EVENT)  # taken once


class Table(Peer):
    """A node that says what the table behind the client says, and notes what it hears beside what stands there."""

    LINE = re.compile(r"^\| ([a-z, ]*?) ?\| `([0-9a-f ]+)`( and the digest)? \| (?:`([0-9a-f ]+)` )?\|", re.M)
    PROOF = "c34f6a99224685e6d5db5b37c241ff7c896b42fa"

    def __init__(self):
        super().__init__()
        self.heard = []

    def run(self):
        for who, head, proof, payload in self.LINE.findall(BEHIND):
            text = digits(head) + (self.PROOF if proof else "") + digits(payload)
            if who == "tool":
                self.heard.append((self.hear().hex(), text))
            else:
                self.say(text)
        for number in (6, 7, 8):
            self.heard.append((self.hear().hex(), f"0000ffff512500{number:02x}"))
        self.say("1234ffff713500e5")


if __name__ == "__main__":
    unittest.main()
