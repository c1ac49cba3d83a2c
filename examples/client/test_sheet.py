#!/usr/bin/env python3
"""The drawing of sheet.py: what is in it, and that nothing lies over anything else.

Runs by itself: python3 examples/client/test_sheet.py"""
import pathlib
import random
import re
import unittest
import xml.etree.ElementTree as tree

import schema
import sheet

EXAMPLES = pathlib.Path(__file__).resolve().parents[1]
MATH = schema.Schema([EXAMPLES / "math.toml", EXAMPLES / "plant.toml"])
BUILDING = [EXAMPLES / "building" / f"{name}.toml" for name in ("logic", "timing", "math", "house")]
CHAR = sheet.FONT * 0.603  # of DejaVu Sans Mono, which is a little wider than others

SMALL = """\
> 127.0.0.1:2001 0001ffff40
/ sys::App id=0 fault=0
  meta=7
/pump sys::Folder id=2 fault=0
  meta=0
/pump/flow math::Ramp id=1 fault=1
  meta=0
  step=-2
  out=3
/pump/sum math::Add2 id=5 fault=0
  meta=3
  in1=3
  in2=0
  out=3
/tag plant::Note id=3 fault=0
  meta=0
  tag=61620000
link 5.3 -> 1.1
link 1.2 -> 5.1
cycles 3
"""


def printed(seed, count):
    """A text of an application of so many components at random, with as many links."""
    draw = random.Random(seed)
    names, lines, free = {0: "/"}, ["/ sys::App id=0 fault=0", "  meta=0"], []
    for number in range(1, count + 1):
        parent = draw.choice(["/"] + [path for path in names.values() if path.endswith("f")])
        kind = draw.choice(("sys::Folder", "math::Ramp", "math::Add2"))
        path = f"{parent.rstrip('/')}/{'c' * draw.randint(1, 28)}{number}{'f' if kind == 'sys::Folder' else ''}"
        names[number] = path
    order = sorted(names.values(), key=lambda path: path.split("/"))
    ids = {path: number for number, path in names.items()}
    for path in order[1:]:
        kind = "sys::Folder" if path.endswith("f") else "math::Ramp" if ids[path] % 2 else "math::Add2"
        lines.append(f"{path} {kind} id={ids[path]} fault={draw.choice((0, 0, 0, 4))}")
        properties = {"sys::Folder": ("meta",), "math::Ramp": ("meta", "step", "out")}
        for place, name in enumerate(properties.get(kind, ("meta", "in1", "in2", "out"))):
            lines.append(f"  {name}={draw.choice((0, 1, -2147483648))}")
            if kind != "sys::Folder":
                free.append((ids[path], place))
    targets = draw.sample(free, min(count, len(free)))
    for to, place in sorted(targets):
        one, slot = draw.choice(free)
        lines.append(f"link {one}.{slot} -> {to}.{place}")
    return "\n".join(lines) + "\n"


def segments(points):
    return list(zip(points, points[1:]))


class Picture:
    """What is in an SVG: boxes, texts, and the lines of links with their names."""

    def __init__(self, text):
        self.root = tree.fromstring(text)
        space = "{http://www.w3.org/2000/svg}"
        rects = [rect.attrib for rect in self.root.iter(space + "rect")]
        self.boxes = [self.sides(rect) for rect in rects if rect.get("rx") == "3"]
        self.frames = [self.sides(rect) for rect in rects if rect.get("rx") == "4"]
        self.faulted = [self.sides(rect) for rect in rects if rect.get("rx") == "3" and rect["stroke"] == sheet.RED]
        self.texts = [(element.attrib, element.text) for element in self.root.iter(space + "text")]
        self.lines, self.dashed = {}, set()
        for path in self.root.iter(space + "path"):
            for title in path.iter(space + "title"):
                numbers = [float(word) for word in re.findall(r"-?[\d.]+", path.get("d"))]
                self.lines[title.text] = list(zip(numbers[::2], numbers[1::2]))
                if path.get("stroke-dasharray"):
                    self.dashed.add(title.text)

    @staticmethod
    def sides(rect):
        x, y = float(rect["x"]), float(rect["y"])
        return x, y, x + float(rect["width"]), y + float(rect["height"])


class Drawn(unittest.TestCase):
    def draw(self, text, kits):
        return Picture("\n".join(sheet.draw(sheet.Sheet(text, kits))))

    def check(self, picture):
        """Nothing lies over anything else, and each line goes from a box to a box."""
        width, height = float(picture.root.get("width")), float(picture.root.get("height"))
        boxes = picture.boxes
        for n, (left, top, right, bottom) in enumerate(boxes):
            self.assertTrue(0 <= left < right <= width and 0 <= top < bottom <= height)
            self.assertTrue(any(f[0] <= left and f[1] <= top and right <= f[2] and bottom <= f[3]
                                for f in picture.frames), "a box stands in a band")
            for other in boxes[:n]:
                self.assertTrue(right < other[0] or other[2] < left or bottom < other[1] or other[3] < top)
        for attributes, text in picture.texts:
            self.check_text(picture, float(attributes["x"]), float(attributes["y"]), attributes, text)
        self.check_lines(picture)

    def check_text(self, picture, x, y, attributes, text):
        span = len(text) * CHAR
        left, right = (x - span, x) if attributes.get("text-anchor") == "end" else (x, x + span)
        self.assertTrue(0 <= left and right <= float(picture.root.get("width")), text)
        for box in picture.boxes:
            touches = left < box[2] and box[0] < right and box[1] < y and y - sheet.FONT < box[3]
            inside = box[0] <= left and right <= box[2] and box[1] <= y - sheet.FONT and y + 3 <= box[3]
            self.assertTrue(inside or not touches, f"{text} leaves its box")

    def check_lines(self, picture):
        pieces = {}
        for name, points in picture.lines.items():
            (x, y), (to_x, to_y) = points[0], points[-1]
            self.assertTrue(any(x == box[2] and box[1] < y < box[3] for box in picture.boxes), name)
            self.assertTrue(any(to_x == box[0] and box[1] < to_y < box[3] for box in picture.boxes), name)
            for (ax, ay), (bx, by) in segments(points):
                self.assertTrue(ax == bx or ay == by, "a line goes across or up and down")
                low, high = (min(ax, bx), min(ay, by)), (max(ax, bx), max(ay, by))
                for left, top, right, bottom in picture.boxes:
                    self.assertFalse(low[0] < right and left < high[0] and low[1] < bottom and top < high[1], name)
                if low != high:
                    way = (0, ay) if ay == by else (1, ax)
                    pieces.setdefault(way, []).append((low[way[0]], high[way[0]], name.split(" -> ")[0]))
        for way in pieces.values():
            self.check_apart(sorted(way))

    def check_apart(self, pieces):
        """On one line pieces of different sources touch nowhere."""
        for n, (low, high, source) in enumerate(pieces):
            for other_low, other_high, other in pieces[:n]:
                self.assertTrue(source == other or other_high < low or high < other_low, (source, other))

    def test_small(self):
        picture = self.draw(SMALL, MATH)
        self.check(picture)
        self.assertEqual(len(picture.boxes), 4, "the App has a meta; the folder has nothing to be seen")
        self.assertEqual(len(picture.faulted), 1)
        texts = [text for _, text in picture.texts]
        for text in ("fault 1: division by 0", "flow #1", "math::Ramp", "step", "-2", "/pump", "61620000",
                     "5 components, 2 links, 1 with a fault"):
            self.assertIn(text, texts)
        self.assertEqual(set(picture.lines), {"/pump/sum.out -> /pump/flow.step", "/pump/flow.out -> /pump/sum.in1"})
        self.assertEqual(picture.dashed, {"/pump/sum.out -> /pump/flow.step"})

    def test_at_random(self):
        for seed in range(20):
            picture = self.draw(printed(seed, 5 + 3 * seed), MATH)
            self.assertGreater(len(picture.lines), 0)
            self.check(picture)

    def test_the_building(self):
        """The pictures in the repository are those of the texts beside them."""
        for name, picture_name in (("morning", "building"), ("trouble", "trouble")):
            text = (EXAMPLES / "building" / f"{name}.txt").read_text()
            svg = "\n".join(sheet.draw(sheet.Sheet(text, schema.Schema(BUILDING)))) + "\n"
            self.assertEqual((EXAMPLES / "building" / f"{picture_name}.svg").read_text(), svg)
            picture = Picture(svg)
            self.check(picture)
            self.assertEqual(len(picture.lines), text.count("\nlink "))
            self.assertEqual(len(picture.faulted), len(re.findall(r"fault=[1-9]", text)))

    def test_other_kits(self):
        with self.assertRaises(SystemExit):
            sheet.Sheet(SMALL.replace("  out=3\n/pump/sum", "/pump/sum"), MATH)
        with self.assertRaises(SystemExit):
            sheet.Sheet("usage\n", MATH)


if __name__ == "__main__":
    unittest.main()
