"""Pages of HTML, pictures as SVG and as PNG, read by Python's standard library."""
import struct
import xml.etree.ElementTree as ElementTree
import zlib
from html.parser import HTMLParser

EMPTY = {"meta", "br", "hr", "img", "link", "input"}
SVG = "{http://www.w3.org/2000/svg}"


class Page(HTMLParser):
    """A page's tables by section and caption, each a list of rows; its texts; its tags; whether each tag is closed."""

    def __init__(self, text):
        super().__init__()
        self.open, self.tags, self.attributes, self.texts, self.tables, self.section = [], set(), [], [], {}, ""
        self.is_balanced = True
        self.feed(text)
        self.close()
        self.is_balanced &= not self.open

    def handle_starttag(self, tag, attrs):
        self.tags.add(tag)
        self.attributes += attrs
        if tag not in EMPTY:
            self.open.append(tag)
        if tag == "tr":
            self.rows.append([])

    def handle_endtag(self, tag):
        self.is_balanced &= bool(self.open) and self.open.pop() == tag

    def handle_data(self, data):
        inside = self.open[-1] if self.open else ""
        if data.strip() and inside != "style":
            self.texts.append(data)
        if inside == "h2":
            self.section = data
        elif inside == "caption":
            self.rows = self.tables[self.section, data] = []
        elif inside in ("th", "td"):
            self.rows[-1].append(data)


def labels(root):
    """The places of a picture's texts: across and down, by text."""
    return {it.text: (float(it.get("x")), float(it.get("y"))) for it in root.iter(f"{SVG}text")}


def curves(text):
    """The points of each curve by its name, in the units of the axes' labels: a capacity, and a part of all lookups."""
    root = ElementTree.fromstring(text)
    at = labels(root)
    (_, none), (_, whole) = at["0 %"], at["100 %"]
    across = {at[label][0]: int(label) for label in at if label.isdigit()}
    found = {}
    for group in root.iter(f"{SVG}g"):
        places = [tuple(map(float, point.split(","))) for point in group.find(f"{SVG}polyline").get("points").split()]
        # (a label stands a few units below its line)
        found[group.find(f"{SVG}title").text] = [(across[x], (none - 4 - y) / (none - whole)) for x, y in places]
    return found


def unfiltered(kind, line, above, size):
    """A line of a PNG by its filter: what it holds is a difference from what stands left, above, or both."""
    made = bytearray(line)
    for place in range(len(made)):
        left = made[place - size] if place >= size else 0
        corner = above[place - size] if place >= size else 0
        guess = left + above[place] - corner
        nearest = min((left, above[place], corner), key=lambda it: abs(guess - it))
        added = (0, left, above[place], (left + above[place]) // 2, nearest)[kind]
        made[place] = (made[place] + added) & 255
    return made


def pixels(data):
    """The lines of a PNG of 8 bits a colour, each a list of (red, green, blue)."""
    place, packed = 8, b""
    while place < len(data):
        length, kind = struct.unpack(">I4s", data[place : place + 8])
        body = data[place + 8 : place + 8 + length]
        if kind == b"IHDR":
            width, height, depth, colours = struct.unpack(">IIBB", body[:10])
        packed += body if kind == b"IDAT" else b""
        place += length + 12
    size = {2: 3, 6: 4}[colours]
    assert depth == 8
    raw, above, lines = zlib.decompress(packed), bytes(width * size), []
    for start in range(0, height * (width * size + 1), width * size + 1):
        above = unfiltered(raw[start], raw[start + 1 : start + 1 + width * size], above, size)
        lines.append([tuple(above[at : at + 3]) for at in range(0, len(above), size)])
    return lines
