#!/usr/bin/env python3
"""The client's words and requests, schemas and records, against bytes and checksums that docs/ and rows have.

Runs by itself: python3 examples/client/test_tool.py"""
import pathlib
import re
import socket
import struct
import unittest

import client
import named
import record
import schema
import tool
import wire

ROOT = pathlib.Path(__file__).resolve().parents[2]
SESSIONS = (ROOT / "docs" / "SESSIONS.md").read_text()
FORMATS = (ROOT / "docs" / "FORMATS.md").read_text()
TALK = re.compile(r"^\| `([0-9a-f ]+)` \| `([0-9a-f ]+)` \| (.*) \|$", re.M)
EVENT = re.compile(r"^\| `(65 ff [0-9a-f ]+)` \| part", re.M)
MATH = schema.Schema([ROOT / "examples" / "math.toml", ROOT / "examples" / "plant.toml"])
FORMS = schema.Schema([ROOT / "crates" / "node_rows" / "data" / "forms.toml"])
SECRET = b"\x01" * 20

# The requests of docs/SESSIONS.md as words of the client, and what it prints.
WORDS = (
    ("add 0 1 0 r1 int 0 int 5", "added 1"),
    ("add 0 1 1 a int 0", "added 2"),
    ("link 1 2 2 1", "linked"),
    ("part 0 t", "0 t 00 03 61 70 70 00 ff ff ff 02 00 01 00 02"),
    ("part 1 c", "1 c 00 00 00 00 00 00 00 05"),
    ("part 1 r", "1 r 00 00 00 00"),
    ("part 1 l", "1 l 00 01 02 00 02 01 ff ff"),
    ("part 1 f", "1 f 00"),
    ("read 1 1 int", "5"),
    ("write 1 1 int 7", "written"),
    ("subscribe 1 tcrl", "subscribed"),
    ("unsubscribe 1 c", "unsubscribed"),
    ("save", "saved"),
    ("rename 1 feed", "renamed"),
    ("reorder 0 2 1", "reordered"),
    ("version", "sys 3600e4e4\nmath ad0f334b"),
    ("clear 1", "cleared"),
    ("unlink 1 2 2 1", "unlinked"),
    ("delete 2", "deleted"),
)


class Page(tool.Tool):
    """Answers requests by the replies of a table, in its order; requests have numbers from 1 on."""

    def __init__(self, rows):
        self.rows, self.sent = rows, 0

    def request(self, letter, body=b""):
        wanted, reply = self.rows[self.sent]
        self.sent += 1
        came = letter.encode() + bytes([self.sent]) + body
        assert came == wanted, (came.hex(" "), wanted.hex(" "))
        return wire.body_of(came, reply)


class Requests(unittest.TestCase):
    def test_words(self):
        """Each request of the page is what the client's words come to, in the page's order."""
        rows = [tuple(map(bytes.fromhex, row[:2])) for row in TALK.findall(SESSIONS)]
        page = Page(rows)
        for words, printed in WORDS:
            self.assertEqual(client.do(page, words.split()), printed)
        with self.assertRaises(wire.Refused) as caught:
            page.read_slot(1, 9, "int")
        self.assertEqual(str(caught.exception), "no slot")

    def test_no_words(self):
        for words in ("", "reed 1 2 int", "read 1 2", "save 1", "invoke 1 2 int", "add 0 1 1 a int"):
            with self.assertRaises(SystemExit, msg=words):
                client.do(Page([]), words.split())

    def test_parts(self):
        place = tool.Place(bytes.fromhex("00 03 61 70 70 00 ff ff ff 02 00 01 00 02"))
        self.assertEqual((place.kit, place.type, place.name, place.parent), (0, 3, "app", wire.NO_ID))
        self.assertEqual((place.permissions, place.children), (255, [1, 2]))
        self.assertEqual(tool.links_of(bytes.fromhex("00 01 02 00 02 01 ff ff")), [((1, 2), (2, 1))])
        for part in ("ff ff 00", "00 01 02 00 02", ""):
            with self.assertRaises(wire.Malformed):
                tool.links_of(bytes.fromhex(part))

    def test_events(self):
        """The events of the page: the id, the part and its bytes."""
        events = [tool.event_of(bytes.fromhex(text)) for text in EVENT.findall(SESSIONS)]
        self.assertEqual([(component, part) for component, part, _ in events], [(1, part) for part in "tcrl"])
        self.assertEqual(tool.Place(events[0][2]).name, "feed")
        self.assertEqual(struct.unpack(">ii", events[1][2]), (0, 7))
        self.assertEqual(tool.links_of(events[3][2]), [])

    def test_named(self):
        """The same requests by names."""
        rows = [tuple(map(bytes.fromhex, row[:2])) for row in TALK.findall(SESSIONS)]
        sheet = named.Named(Page(rows), MATH)
        sheet.add("r1", "math::Ramp", step=5)
        sheet.add("a", "math::Add2")
        sheet.link("r1.out", "a.in1")
        sheet.tool.sent = 9
        sheet.write("r1.step", 7)
        sheet.tool.sent = 12
        sheet.invoke(".save")
        sheet.tool.sent = 16
        sheet.clear("r1")


class Schemas(unittest.TestCase):
    def test_checksums(self):
        """They speak of all types and slots; the node has them in a reply to `v`."""
        self.assertEqual([(name, f"{checksum:08x}") for name, checksum in MATH.versions()],
                         [("sys", "3600e4e4"), ("math", "ad0f334b"), ("plant", "b167dd7e")])
        self.assertEqual(f"{FORMS.kit('forms').checksum():08x}", "40694739")

    def test_slots(self):
        gate = FORMS.type("forms::Gate")
        self.assertEqual([(slot.number, slot.name) for slot in gate.slots][8:], [
            (8, "note"), (9, "count"), (10, "tell"), (11, "part"), (12, "keep")])
        self.assertEqual([slot.kind for slot in gate.slots if slot.is_action], ["void", "bool", "int", "long"])
        self.assertEqual([slot.name for slot in gate.slots if slot.is_config], ["meta", "open", "label"])
        self.assertEqual(gate.config(meta=5, open=True, label=b"hi").hex(" "), "00 00 00 05 01 00 02 68 69")
        self.assertEqual(gate.slot("note").bytes_of().hex(" "), "00 03 61 62 00")
        self.assertEqual(gate.slot("told").bytes_of().hex(), "02")
        with self.assertRaises(LookupError):
            gate.config(width=3)

    def test_gaps(self):
        """Comments, braces in them and in literals, and facets are read past."""
        kits = schema.Schema([])
        kits.put("k", [], """
            /* class No { property int no } */
            @name="a" abstract class A extends Component { // }
              @unit="m" @config property short a = 3; property byte b ** property int c
              int open() { if ('}' == 3) { return 1 } return '{' }
              action void stop1(long x)
            }
            class B extends k::A { override action void stop1(long x) { a = 1 } property Buf( 4 ) d }
            class C { }""")
        self.assertEqual(kits.kit("k").canonical_text(),
                         "kit k\nclass A sys::Component abstract\nprop a short config\nprop b byte runtime\n"
                         "action stop1 long\nclass B k::A concrete\nprop d Buf(4) runtime\nclass C sys::Obj concrete\n")


class Records(unittest.TestCase):
    def test_a_record(self):
        """What the first session of the page's generated record sends, in the same bytes."""
        block = FORMATS[FORMATS.index("The record of one component, no link and no tick"):]
        lines = [line for line in block.split("```")[1].split("\n") if "07d1" in line]
        digest = wire.digest("ann", "secret", bytes.fromhex("5d13289f92b32bf4cbd3")).hex()
        wanted = "".join(re.sub(r"\s", "", line.replace("and A's digest", digest)) for line in lines)
        recorder = record.Recorder("ann", "secret", SECRET)
        self.assertEqual(recorder.add(tool.APP, 0, 4, "f0", bytes(4)), 1)
        recorder.save()
        self.assertEqual(recorder.text.hex(), wanted)
        head = "647f00000107d1"
        end = head + "00080000ffff51250001" + head + "00050000ffff70" + "7a"
        self.assertEqual(recorder.whole().hex(), wanted + end)

    def test_sessions(self):
        """Each session has another nonce and id; a tick comes between them; ids are the least that are free."""
        recorder = record.Recorder("ann", "secret", SECRET, taken=(0, 2))
        self.assertEqual(recorder.add(tool.APP, 1, 0, "r1", bytes(8)), 1)
        recorder.tick(100000000)
        self.assertEqual(recorder.add(tool.APP, 1, 0, "r2", bytes(8)), 3)
        self.assertIn("740000000005f5e100", recorder.text.hex())
        proof = wire.digest("ann", "secret", record.nonce(SECRET, 1)).hex()
        self.assertIn("0010ffff3216616e6e001b14" + proof, recorder.text.hex())
        self.assertEqual(record.nonce(SECRET, 0).hex(), "5d13289f92b32bf4cbd3")
        for letter in "crvsd":
            with self.assertRaises(ValueError):
                recorder.request(letter) if letter != "d" else recorder.delete(1)


class Events(unittest.TestCase):
    """A session against a socket that is spoken for by hand."""

    def setUp(self):
        self.node = socket.socket(socket.AF_INET, socket.SOCK_DGRAM)
        self.node.bind(("127.0.0.1", 0))
        self.node.settimeout(5)
        session = object.__new__(client.Session)
        session.socket = socket.socket(socket.AF_INET, socket.SOCK_DGRAM)
        session.socket.connect(self.node.getsockname())
        session.socket.settimeout(0.05)
        session.log, session.own_id, session.node_id = None, 0x1234, 0
        session.sent, session.taken, session.gap, session.told = 0, set(), 0, []
        self.session = session
        self.peer = session.socket.getsockname()

    def tearDown(self):
        self.node.close()
        self.session.socket.close()

    def say(self, number, payload):
        text = wire.write_message(0x1234, wire.DATAGRAM, {"ack": 0}, number, bytes.fromhex(payload))
        self.node.sendto(text, self.peer)

    def heard(self):
        return wire.read_message(self.node.recv(600))[2:4]

    def test_events(self):
        """Events come in the order of their coming, each once, and each is acknowledged."""
        self.say(1, "65 ff 00 02 72 00 00 00 05")
        self.say(0, "65 ff 00 01 74 01 00 61 00 00 00 ff 00")
        self.say(0, "65 ff 00 01 74 01 00 61 00 00 00 ff 00")
        printed = client.do(self.session, ["events", "0.3"])
        self.assertEqual(printed, "2 r 00 00 00 05\n1 t 01 00 61 00 00 00 ff 00")
        self.assertEqual(self.heard(), (wire.KEEP_ALIVE, {"ack": 65535, "ack_more": b"\2\0\0\0"}))
        self.assertEqual(self.heard(), (wire.KEEP_ALIVE, {"ack": 1}))
        self.assertEqual(self.heard(), (wire.KEEP_ALIVE, {"ack": 1}))

    def test_an_event_before_a_reply(self):
        """What comes while a reply is waited for is told afterwards."""
        self.say(0, "65 ff 00 01 72 00 00 00 07")
        self.say(1, "58 00")
        self.session.clear(1)
        self.assertEqual(list(self.session.events(0)), [(1, "r", bytes((0, 0, 0, 7)))])

    def test_keep_alives(self):
        """A keepAlive of the node is not answered; a client that has nothing to say says so."""
        self.node.sendto(wire.write_message(0x1234, wire.KEEP_ALIVE, {"ack": 0}), self.peer)
        self.assertEqual(list(self.session.events(0.1)), [])
        self.node.settimeout(0.1)
        with self.assertRaises(socket.timeout):
            self.node.recv(600)
        before, client.KEEP_ALIVE = client.KEEP_ALIVE, 0.1
        try:
            self.assertEqual(list(self.session.events(0.3)), [])
        finally:
            client.KEEP_ALIVE = before
        self.assertEqual(self.heard(), (wire.KEEP_ALIVE, {"ack": 65535}))


if __name__ == "__main__":
    unittest.main()
