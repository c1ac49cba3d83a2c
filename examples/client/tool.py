"""The requests that a tool has, each as a method (docs/SESSIONS.md). Whoever inherits them has a `request`."""
import struct

import wire

APP = 0           # the App's id
SAVE = 1          # the slot of its action `save`
PARTS = {"t": 1, "c": 2, "r": 4, "l": 8}  # the bits of a mask


def mask_of(letters):
    """The mask of such parts, which letters name."""
    return sum(PARTS[letter] for letter in set(letters))


class Tool:
    """Requests. `request(letter, body)` sends one and gives the body of its reply, or raises wire.Refused."""

    def request(self, letter, body=b""):
        raise NotImplementedError

    def versions(self):
        """The names of the kits, in their order, each with its checksum."""
        return wire.kits_of(self.request("v"))

    def add(self, parent, kit, number, name, values=b""):
        """Adds a component of that type as the last child of its parent, and gives its id. `values` are the bytes of
        all its config values, in the order of the slots."""
        head = struct.pack(">HBB", parent, kit, number)
        return wire.Reader(self.request("a", head + name.encode("ascii") + b"\0" + values)).number(2)

    def delete(self, component):
        """Deletes a component, all below it, and the links at them."""
        self.request("d", struct.pack(">H", component))

    def rename(self, component, name):
        self.request("n", struct.pack(">H", component) + name.encode("ascii") + b"\0")

    def reorder(self, component, children):
        """Puts the children of a component in that order. All of them are named."""
        self.request("o", struct.pack(f">HB{len(children)}H", component, len(children), *children))

    def link(self, source, target):
        """Links two slots. Each end is an id and a slot."""
        self.request("l", b"a" + struct.pack(">HBHB", *source, *target))

    def unlink(self, source, target):
        self.request("l", b"d" + struct.pack(">HBHB", *source, *target))

    def read_slot(self, component, slot, kind):
        """A property's value, as words."""
        place = struct.pack(">HB", component, slot)
        body = self.request("r", place)
        if body[:3] != place:
            raise wire.Malformed("another slot")
        return wire.read_value(kind, body[3:])

    def write_slot(self, component, slot, kind, text):
        self.request("w", struct.pack(">HB", component, slot) + wire.write_value(kind, text))

    def invoke(self, component, slot, argument=b""):
        """Runs an action. A trap of it is no refusal: it shows in part `f`."""
        self.request("i", struct.pack(">HB", component, slot) + argument)

    def save(self):
        """Runs the `save` of the App."""
        self.invoke(APP, SAVE)

    def clear(self, component):
        """Puts the fault of a component to 0."""
        self.request("x", struct.pack(">H", component))

    def part(self, component, letter):
        """The bytes of a part of a component: `t`, `c`, `r`, `l` or `f`."""
        head = struct.pack(">H", component) + letter.encode("ascii")
        body = self.request("c", head)
        if body[:3] != head:
            raise wire.Malformed("another part")
        return body[3:]

    def subscribe(self, component, letters):
        """Asks for events of these parts: any of `t`, `c`, `r` and `l`."""
        self.request("s", struct.pack(">HB", component, mask_of(letters)))

    def unsubscribe(self, component, letters):
        self.request("u", struct.pack(">HB", component, mask_of(letters)))


class Place:
    """A part `t`: where a component stands in the tree."""

    def __init__(self, part):
        reader = wire.Reader(part)
        self.kit, self.type, self.name = reader.number(1), reader.number(1), reader.text()
        self.parent, self.permissions = reader.number(2), reader.number(1)
        self.children = [reader.number(2) for _ in range(reader.number(1))]
        if reader.left:
            raise wire.Malformed("bytes behind a part")


def links_of(part):
    """The links of a part `l`: each a source and a target, an id and a slot both."""
    reader, links = wire.Reader(part), []
    while True:
        source = reader.number(2)
        if source == wire.NO_ID:
            break
        links.append(((source, reader.number(1)), (reader.number(2), reader.number(1))))
    if reader.left:
        raise wire.Malformed("bytes behind a part")
    return links


def event_of(payload):
    """The id, the letter of the part and its bytes that an event tells."""
    reader = wire.Reader(payload)
    if reader.take(2) != b"e\xff":
        raise wire.Malformed("no event")
    return reader.number(2), reader.take(1).decode("ascii"), reader.left
