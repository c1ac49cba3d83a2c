#!/usr/bin/env python3
"""Draws an application as a wire sheet, in SVG: python3 sheet.py --kits a.toml,b.toml < printed > sheet.svg

What is read is what `sedona show`, `replay` or `run` prints; lines of another form are passed over. Boxes stand in a
band for each parent, right of those whose values they get in the same cycle. No line goes through a box."""
import argparse
import collections
import re
import sys
from xml.sax.saxutils import escape

import schema

HEAD = re.compile(r"^(/\S*) (\w+::\w+) id=(\d+) fault=(\d+)$")
PROPERTY = re.compile(r"^  (\w+)=(\S*)$")
LINK = re.compile(r"^link (\d+)\.(\d+) -> (\d+)\.(\d+)$")
FAULTS = {1: "division by 0", 2: "use of null", 3: "index outside", 4: "turns spent", 5: "calls too deep"}

CHAR, FONT = 6.7, 11            # the width of a character, and the size of the font
ROW = 16                        # the height of a row of a box
PORT = 3                        # how far below and above the middle of its row a link leaves and comes
GAP = 16                        # between two boxes of a column
STEP = 7                        # between two lines side by side
PAD = 8                         # within a box, left and right
EDGE = 14                       # of a gutter without lines, on both sides
MARGIN = 20                     # around the sheet
LONGEST = 24                    # characters of a value that are shown
PLAIN = ("sys::App", "sys::Folder")  # no box is drawn of these, unless there is something to be seen

PAPER, INK, PALE, RED, RULE = "#ffffff", "#1f2933", "#616e7c", "#c81e1e", "#9aa5b1"
WIRES = {"bool": "#0b7a4b", "Buf": "#7b4fa3"}
WIRE = "#1c5fa8"
LEGEND = (("blue: numbers", WIRE), ("green: bools", WIRES["bool"]), ("purple: Bufs", WIRES["Buf"]),
          ("dashed: the value of the cycle before", INK), ("shaded: config", PALE), ("red: a fault", RED))


class Component:
    """What is printed of a component, and where its box stands."""

    def __init__(self, path, type_name, number, fault):
        self.path, self.type_name, self.id, self.fault = path, type_name, int(number), int(fault)
        self.parent, _, self.name = path.rpartition("/")
        self.values = []        # pairs of a property's name and its value, as printed
        self.rows = []          # the slots of the box: each its number, name, value and whether it is config
        self.column = 0
        self.x = self.y = self.width = self.height = 0

    def head(self):
        """The lines above the slots."""
        lines = [f"{self.name or 'app'} #{self.id}", self.type_name]
        return lines + [fault_text(self.fault)] if self.fault else lines

    def row_middle(self, slot):
        place = next(n for n, row in enumerate(self.rows) if row[0] == slot)
        return self.y + (len(self.head()) + place) * ROW + ROW // 2

    def measure(self):
        widths = [len(line) for line in self.head()] + [len(name) + len(value) + 2 for _, name, value, _ in self.rows]
        self.width = round(max(widths) * CHAR + 2 * PAD)
        self.height = (len(self.head()) + len(self.rows)) * ROW


def fault_text(number):
    return f"fault {number}: {FAULTS.get(number, 'unknown')}"


class Link:
    """A link, by its ends. It is late where its target is visited before its source: it copies the cycle before."""

    def __init__(self, source, from_slot, target, to_slot, is_late, kind):
        self.source, self.from_slot, self.target, self.to_slot = source, from_slot, target, to_slot
        self.is_late, self.kind = is_late, kind

    @property
    def net(self):
        """The slot that the link comes from: links of one net share their lines."""
        return self.source.id, self.from_slot

    def words(self, slot_name):
        """Its ends by their names."""
        return (f"{self.source.path}.{slot_name(self.source, self.from_slot)} -> "
                f"{self.target.path}.{slot_name(self.target, self.to_slot)}")


class Sheet:
    """An application as printed, over its kits: its components depth first, and its links."""

    def __init__(self, text, kits):
        self.kits, self.components, ends = kits, [], []
        for line in text.splitlines():
            head, value, link = HEAD.match(line), PROPERTY.match(line), LINK.match(line)
            if head:
                self.components.append(Component(*head.groups()))
            elif value and self.components:
                self.components[-1].values.append(value.groups())
            elif link:
                ends.append([int(word) for word in link.groups()])
        if not self.components:
            raise SystemExit("no application in what is read")
        order = {component.id: place for place, component in enumerate(self.components)}
        self.links = []
        for source, from_slot, target, to_slot in ends:
            one, other = self.components[order[source]], self.components[order[target]]
            kind = self.slot(one, from_slot).kind
            self.links.append(Link(one, from_slot, other, to_slot, order[source] >= order[target], kind))
        linked = {(c.id, slot) for link in self.links
                  for c, slot in ((link.source, link.from_slot), (link.target, link.to_slot))}
        for component in self.components:
            self.fill(component, linked)
        self.boxes = [component for component in self.components
                      if component.rows or component.fault or component.type_name not in PLAIN]

    def slot(self, component, number):
        return self.kits.type(component.type_name).slots[number]

    def fill(self, component, linked):
        """The rows of a box: all properties but a `meta` of 0 that no link has."""
        slots = self.kits.type(component.type_name).properties
        if [slot.name for slot in slots] != [name for name, _ in component.values]:
            raise SystemExit(f"the kits are others: {component.path} has other slots")
        for slot, (name, value) in zip(slots, component.values):
            if slot.number or value != "0" or (component.id, 0) in linked:
                shown = value if len(value) <= LONGEST else value[:LONGEST - 2] + ".."
                component.rows.append((slot.number, name, shown, slot.is_config))
        component.measure()

    def bands(self):
        """The boxes by their parents, in their order. The App, which has none, stands with its children."""
        parents = {component.path if component.id else "": component for component in self.components}
        bands = collections.OrderedDict()
        for box in self.boxes:
            bands.setdefault(parents[box.parent], []).append(box)
        return list(bands.items())


def put_in_columns(boxes, links):
    """Numbers the columns of a band: a box stands right of those that it has links from which are not late."""
    here = [link for link in links if not link.is_late and link.source in boxes and link.target in boxes]
    before = {box: {link.source for link in here if link.target is box} for box in boxes}
    behind = {box: {link.target for link in here if link.source is box} for box in boxes}
    for box in boxes:
        box.column = max((other.column + 1 for other in before[box]), default=0)
    for box in reversed(boxes):
        if behind[box] and len(behind[box]) >= len(before[box]):
            box.column = min(other.column for other in behind[box]) - 1
    for box in boxes:
        if before[box] and len(behind[box]) <= len(before[box]):
            box.column = max(other.column for other in before[box]) + 1


def spread(spans):
    """Gives each span, a key with its two ends, a number such that spans of one number are apart; and how many."""
    ends, places = [], {}
    for key, (low, high) in sorted(spans.items(), key=lambda item: (item[1], item[0])):
        free = next((n for n, end in enumerate(ends) if end < low), None)
        if free is None:
            free = len(ends)
            ends.append(high)
        ends[free] = high
        places[key] = free
    return places, len(ends)


def label(parent):
    """What stands at the left of a band."""
    return [parent.path, f"{parent.type_name} #{parent.id}"]


class Drawing:
    """Where everything of a sheet stands. Columns have gutters between them, bands a street above each."""

    def __init__(self, sheet):
        self.sheet, self.bands = sheet, sheet.bands()
        self.band_of = {box: number for number, (_, boxes) in enumerate(self.bands) for box in boxes}
        for _, boxes in self.bands:
            put_in_columns(boxes, sheet.links)
        self.columns = 1 + max((box.column for box in sheet.boxes), default=0)
        self.label = max((len(line) for parent, _ in self.bands for line in label(parent)), default=0) * CHAR
        self.place_rows()
        self.place_columns()

    # A link leaves its box into the gutter right of its column, and comes to its target from the gutter left of that.
    # Gutter 0 is left of all columns. Where the two differ it goes along the street above its target's band.
    def gutters(self, link):
        return link.source.column + 1, link.target.column

    def street(self, link):
        return self.band_of[link.target]

    def ends(self, link):
        return link.source.row_middle(link.from_slot) + PORT, link.target.row_middle(link.to_slot) - PORT

    def place_rows(self):
        """The lanes of each street, and from them the heights of all boxes."""
        spans = collections.defaultdict(dict)
        for link in self.sheet.links:
            one, other = self.gutters(link)
            if one != other:
                low, high = spans[self.street(link)].get(link.net, (one, one))
                spans[self.street(link)][link.net] = min(low, one, other), max(high, one, other)
        y, self.lanes, self.frames = MARGIN + 2 * ROW, {}, []
        for number, (_, boxes) in enumerate(self.bands):
            places, count = spread(spans[number])
            for net, place in places.items():
                self.lanes[number, net] = y + EDGE + place * STEP
            y = -(-(y + 2 * EDGE + count * STEP) // ROW) * ROW
            top, tops = y, collections.defaultdict(lambda: y + GAP)
            for box in boxes:
                box.y = tops[box.column]
                tops[box.column] += box.height + GAP
            y = max(tops.values())
            self.frames.append((top, y))
        self.height = y + 3 * ROW + MARGIN

    def place_columns(self):
        """The tracks of each gutter, and from them where all boxes stand across."""
        spans = collections.defaultdict(dict)
        def reach(gutter, net, *heights):
            old = spans[gutter].get(net, (heights[0], heights[0]))
            spans[gutter][net] = min(old + heights), max(old + heights)
        for link in self.sheet.links:
            one, other = self.gutters(link)
            begin, end = self.ends(link)
            if one == other:
                reach(one, link.net, begin, end)
            else:
                lane = self.lanes[self.street(link), link.net]
                reach(one, link.net, begin, lane)
                reach(other, link.net, lane, end)
        x, self.tracks = MARGIN + PAD + self.label, {}
        for gutter in range(self.columns + 1):
            places, count = spread({net: (low - STEP, high) for net, (low, high) in spans[gutter].items()})
            for net, place in places.items():
                self.tracks[gutter, net] = x + EDGE + place * STEP
            x += 2 * EDGE + max(count - 1, 0) * STEP
            column = [box for box in self.sheet.boxes if box.column == gutter]
            for box in column:
                box.x = x
            x += max((box.width for box in column), default=0)
        self.width = max(x, MARGIN + sum(len(line) + 3 for line, _ in LEGEND) * CHAR) + MARGIN

    def line(self, link):
        """The corners of a link's line."""
        one, other = self.gutters(link)
        begin, end = self.ends(link)
        x, points = self.tracks[one, link.net], [(link.source.x + link.source.width, begin)]
        points.append((x, begin))
        if one != other:
            lane = self.lanes[self.street(link), link.net]
            points += [(x, lane), (self.tracks[other, link.net], lane)]
            x = self.tracks[other, link.net]
        return points + [(x, end), (link.target.x, end)]

    def branches(self):
        """Where lines of one net part."""
        joined = collections.defaultdict(lambda: collections.defaultdict(set))
        for link in self.sheet.links:
            points = self.line(link)
            for (ax, ay), (bx, by) in zip(points, points[1:]):
                joined[link.net]["x" if ax == bx else "y", ax if ax == bx else ay].update(((ax, ay), (bx, by)))
        for net, lines in joined.items():
            for (way, _), points in lines.items():
                inner = sorted(points, key=lambda point: point[1 if way == "x" else 0])[1:-1]
                yield from ((net, point) for point in inner)


def tag(name, text=None, **attributes):
    words = "".join(f' {key.replace("_", "-")}="{value}"' for key, value in attributes.items())
    return f"<{name}{words}/>" if text is None else f"<{name}{words}>{text}</{name}>"


def words(x, y, text, **attributes):
    return tag("text", escape(text), x=f"{x:g}", y=f"{y:g}", **attributes)


def draw_box(box):
    """The lines of a box."""
    head = len(box.head()) * ROW
    border = dict(stroke=RED, stroke_width=2.5) if box.fault else dict(stroke=INK, stroke_width=1)
    yield tag("rect", x=f"{box.x:g}", y=box.y, width=box.width, height=box.height, rx=3, fill=PAPER, **border)
    yield tag("rect", x=f"{box.x + 1:g}", y=box.y + 1, width=box.width - 2, height=head - 2,
              fill="#fde2e2" if box.fault else "#e4ebf5")
    for place, line in enumerate(box.head()):
        look = (dict(font_weight="bold", fill=INK), dict(fill=PALE), dict(fill=RED, font_weight="bold"))[place]
        yield words(box.x + PAD, box.y + place * ROW + ROW - 4, line, **look)
    for place, (_, name, value, is_config) in enumerate(box.rows):
        y = box.y + head + place * ROW
        if is_config:
            yield tag("rect", x=f"{box.x + 1:g}", y=y, width=box.width - 2, height=ROW - 1, fill="#f1f1ec")
        yield words(box.x + PAD, y + ROW - 4, name, fill=INK)
        yield words(box.x + box.width - PAD, y + ROW - 4, value, fill=INK, text_anchor="end")


def draw_link(drawing, link):
    """The line of a link, with an arrow at its target."""
    points = drawing.line(link)
    colour = WIRES.get(link.kind.split("(")[0], WIRE)
    path = "M" + " L".join(f"{x:g} {y:g}" for x, y in points)
    dashed = {"stroke_dasharray": "5 3"} if link.is_late else {}
    name = link.words(lambda component, number: drawing.sheet.slot(component, number).name)
    yield tag("path", tag("title", escape(name)), d=path, fill="none", stroke=colour, stroke_width=1.3, **dashed)
    x, y = points[-1]
    yield tag("path", d=f"M{x:g} {y:g} l-6 -3 v6 z", fill=colour)


def draw(sheet):
    """The SVG of a sheet."""
    drawing = Drawing(sheet)
    yield (f'<svg xmlns="http://www.w3.org/2000/svg" width="{drawing.width:g}" height="{drawing.height:g}" '
           f'viewBox="0 0 {drawing.width:g} {drawing.height:g}" font-family="DejaVu Sans Mono, monospace" '
           f'font-size="{FONT}">')
    yield tag("rect", width="100%", height="100%", fill=PAPER)
    faulted = [component for component in sheet.components if component.fault]
    title = f"{len(sheet.components)} components, {len(sheet.links)} links, {len(faulted)} with a fault"
    yield words(MARGIN, MARGIN + ROW, title, font_weight="bold", fill=RED if faulted else INK)
    for (parent, _), (top, end) in zip(drawing.bands, drawing.frames):
        yield tag("rect", x=MARGIN, y=top, width=f"{drawing.width - 2 * MARGIN:g}", height=end - top, rx=4,
                  fill="#f8fafc", stroke=RULE, stroke_width=0.7)
        for place, line in enumerate(label(parent)):
            look = dict(fill=PALE) if place else dict(font_weight="bold", fill=INK)
            yield words(MARGIN + PAD, top + GAP + (place + 1) * ROW - 4, line, **look)
    for link in sheet.links:
        yield from draw_link(drawing, link)
    kinds = {link.net: link.kind for link in sheet.links}
    for net, (x, y) in drawing.branches():
        yield tag("circle", cx=f"{x:g}", cy=f"{y:g}", r=2, fill=WIRES.get(kinds[net].split("(")[0], WIRE))
    for box in sheet.boxes:
        yield from draw_box(box)
    yield from legend(drawing.height - MARGIN - ROW)
    yield "</svg>"


def legend(y):
    """What the lines and colours are."""
    x = MARGIN
    for line, colour in LEGEND:
        yield words(x, y, line, fill=colour)
        x += (len(line) + 3) * CHAR


def main():
    parser = argparse.ArgumentParser(description=__doc__, formatter_class=argparse.RawDescriptionHelpFormatter)
    parser.add_argument("--kits", required=True, help="the manifests of the kits, with commas between them")
    asked = parser.parse_args()
    try:
        sheet = Sheet(sys.stdin.read(), schema.Schema(asked.kits.split(",")))
    except (LookupError, OSError) as why:
        sys.exit(f"the kits are others: {why}")
    print("\n".join(draw(sheet)))


if __name__ == "__main__":
    main()
