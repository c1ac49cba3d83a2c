"""What a tool knows of kits: their types and slots, read from manifests and sources as a tool reads them.

It is no check: a kit that `sedona check` refuses may be read as something here. What it reads of accepted kits is
held against their checksums, which speak of just this (docs/FORMATS.md)."""
import hashlib
import pathlib
import re

import wire

GAPS = re.compile(r'"(?:\\.|[^"\\\n])*"|\'(?:\\.|[^\'\\\n])*\'|//[^\n]*|\*\*[^\n]*|/\*.*?\*/', re.S)
CLASS = re.compile(r"\b((?:\w+\s+)*)class\s+(\w+)(?:\s+extends\s+(\w+(?:::\w+)?))?\s*\{")
SLOT = re.compile(
    r"((?:@\w+(?:\s*=\s*\S+)?\s+)*)((?:\w+\s+)*?)(property|action)\s+((?:\w+\s+)*?)(\w+(?:\s*\(\s*\w+\s*\))?)\s+(\w+)"
    r"\s*(\(([^)]*)\)|=\s*(-?[\w\"\\$' ]+))?")
VALUES = {"bool": "false", "byte": "0", "short": "0", "int": "0", "long": "0"}


def by_name(things, name):
    """The one of that name; LookupError where there is none."""
    for thing in things:
        if thing.name == name:
            return thing
    raise LookupError(f"there is no {name}")


class Slot:
    """A property or an action of a type, by its number."""

    def __init__(self, number, name, kind, is_action, is_config, initial):
        self.number, self.name, self.kind = number, name, kind
        self.is_action, self.is_config, self.initial = is_action, is_config, initial

    def bytes_of(self, value=None):
        """The bytes of a value of this slot: of a number, a truth value or bytes, and else of its initial value."""
        if value is None:
            value = self.initial
        if self.kind.startswith("Buf"):
            text = value if isinstance(value, bytes) else value.strip('"').encode("ascii") + b"\0" if value else b""
            return wire.write_value("buf", text.hex())
        return wire.write_value(self.kind, str(value).lower() if self.kind == "bool" else str(value))

    def line(self):
        """Its line in the canonical text of its kit."""
        if self.is_action:
            return f"action {self.name} {self.kind}\n"
        return f"prop {self.name} {self.kind} {'config' if self.is_config else 'runtime'}\n"


class Type:
    """A type of a kit, by its number. `slots` are those of its bases and then its own."""

    def __init__(self, kit, number, name, base, is_abstract, own):
        self.kit, self.number, self.name, self.base = kit, number, name, base
        self.is_abstract, self.own = is_abstract, own

    @property
    def slots(self):
        return (self.base.slots if self.base else []) + self.own

    @property
    def properties(self):
        return [slot for slot in self.slots if not slot.is_action]

    def slot(self, name):
        return by_name(self.slots, name)

    def config(self, **given):
        """The bytes of all config values, as an add has them: those given by name, and else the initial ones."""
        config = [slot for slot in self.slots if slot.is_config]
        unknown = set(given) - {slot.name for slot in config}
        if unknown:
            raise LookupError(f"{self.name} has no config property {', '.join(sorted(unknown))}")
        return b"".join(slot.bytes_of(given.get(slot.name)) for slot in config)

    def text(self):
        base = f"{self.base.kit.name}::{self.base.name}" if self.base else "-"
        head = f"class {self.name} {base} {'abstract' if self.is_abstract else 'concrete'}\n"
        return head + "".join(slot.line() for slot in self.own)


class Kit:
    """A kit by its number, with its types."""

    def __init__(self, number, name, depends=()):
        self.number, self.name, self.depends, self.types = number, name, depends, []

    def type(self, name):
        return by_name(self.types, name)

    def canonical_text(self):
        return f"kit {self.name}\n" + "".join(type_.text() for type_ in self.types)

    def checksum(self):
        return int.from_bytes(hashlib.sha1(self.canonical_text().encode()).digest()[:4], "big")


def without_gaps(text):
    """A source with blanks in the place of comments; literals stay."""
    return GAPS.sub(lambda gap: gap[0] if gap[0][0] in "\"'" else " ", text)


def body_from(text, at):
    """What stands in the braces of which one is open before `at`, and where it ends; deeper braces are empty."""
    depth, members = 1, []
    while depth:
        brace = re.compile(r"[{}]").search(text, at)
        if depth == 1:
            members.append(text[at:brace.start()])
        depth += 1 if brace[0] == "{" else -1
        at = brace.end()
    return "{}\n".join(members), at


def own_slots(members, inherited):
    """The slots that a class declares itself, by the text of its members."""
    slots = []
    for facets, before, word, between, kind, name, rest, argument, initial in SLOT.findall(members):
        is_action = word == "action"
        if "override" in (before + between).split():
            continue
        if is_action:
            kind = argument.split()[0] if argument.split() else "void"
        kind = re.sub(r"\s", "", kind)
        value = initial.strip() or VALUES.get(kind, "")
        config = "@config" in facets.split() and not is_action
        slots.append(Slot(len(inherited) + len(slots), name, kind, is_action, config, value))
    return slots


def system():
    """The kit sys."""
    kit = Kit(0, "sys")
    base = None
    for number, (name, is_abstract) in enumerate((("Obj", True), ("Virtual", True), ("Component", True))):
        own = [Slot(0, "meta", "int", False, True, "0")] if name == "Component" else []
        base = Type(kit, number, name, base, is_abstract, own)
        kit.types.append(base)
    kit.types.append(Type(kit, 3, "App", base, False, [Slot(1, "save", "void", True, False, "")]))
    kit.types.append(Type(kit, 4, "Folder", base, False, []))
    return kit


def read_manifest(path):
    """The name, the dependences and the text of all sources of a kit. Sources stand beside their manifest."""
    path = pathlib.Path(path)
    text = path.read_text()
    keys = {key: re.findall(r'"([^"]*)"', value) for key, value in
            re.findall(r"^(\w+)\s*=\s*(\[[^\]]*\]|\"[^\"]*\")", text, re.M)}
    sources = "\n".join((path.parent / name).read_text() for name in keys["files"])
    return keys["name"][0], keys.get("depends", []), sources


class Schema:
    """The kits of a node: `sys` and then the others, each behind those that it depends on."""

    def __init__(self, manifests):
        self.kits = [system()]
        left = [read_manifest(path) for path in manifests]
        while left:
            names = [kit.name for kit in self.kits]
            ready = [kit for kit in left if all(name in names for name in kit[1])]
            if not ready:
                raise LookupError(f"kit {left[0][0]} depends on one that is not there")
            left.remove(ready[0])
            self.put(*ready[0])

    def put(self, name, depends, sources):
        kit = Kit(len(self.kits), name, depends)
        self.kits.append(kit)
        text, at, declared = without_gaps(sources), 0, []
        while True:
            head = CLASS.search(text, at)
            if not head:
                break
            members, at = body_from(text, head.end())
            kit.types.append(Type(kit, len(declared), head[2], None, "abstract" in head[1].split(), []))
            declared.append((kit.types[-1], head[3], members))
        done = set()
        for type_, _, _ in declared:
            self.complete(type_, declared, done)

    def complete(self, type_, declared, done):
        """Finds a type's base and slots, its base's first."""
        if type_.kit.number == 0 or type_ in done or type_ not in [known for known, _, _ in declared]:
            return
        done.add(type_)
        _, base, members = declared[type_.number]
        type_.base = self.find(type_.kit, base or "Obj")
        self.complete(type_.base, declared, done)
        type_.own = own_slots(members, type_.base.slots)

    def find(self, kit, name):
        """The type of that name, sought in the kit, in those that it depends on, and in sys."""
        of, _, name = name.rpartition("::")
        for other in [kit] + [self.kit(depends) for depends in kit.depends] + [self.kits[0]]:
            for type_ in other.types:
                if type_.name == name and of in ("", other.name):
                    return type_
        raise LookupError(f"there is no {name}")

    def kit(self, name):
        return by_name(self.kits, name)

    def type(self, name):
        """A type by its full name, as `math::Add2`."""
        kit, _, of_kit = name.partition("::")
        return self.kit(kit).type(of_kit)

    def versions(self):
        """What a node over these kits answers to `v`."""
        return [(kit.name, kit.checksum()) for kit in self.kits]
