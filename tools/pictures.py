#!/usr/bin/env python3
"""Draws the pictures of the documents: `pictures.py` writes them, `pictures.py --check` writes nothing and ends with 1 where one of
them isn't what it would write.

Each docs/NAME.svg is drawn from docs/NAME.txt, and docs/rooms.svg from crates.txt besides. A line of such a text is one of

    size WIDTH HEIGHT
    title TEXT
    box NAME X Y WIDTH HEIGHT KIND | TITLE | LINE | ..
    tile X Y WIDTH HEIGHT KIND | TEXT
    note X Y | TEXT
    edge FROM TO [X,Y ..] | LABEL
    arrow X,Y X,Y .. | LABEL

KIND is `plain`, `strong` or `pale`; a line that begins with a backquote is set as code. An edge goes from one box to the other by way
of its points, an arrow from point to point. A tile is a small box with one line. A box without a TITLE is named by its NAME, and one without lines in docs/rooms.txt takes what crates.txt says of the
room. The edges of docs/rooms.svg are those of crates.txt: a room points to each room that a crate of it names, but to those that it
reaches by another one; docs/rooms.txt gives only their points. A box that is no room of crates.txt isn't drawn."""

import argparse
import pathlib
import sys
import textwrap

DOCS = pathlib.Path(__file__).resolve().parent.parent / "docs"
OUTSIDE = "tests and examples"

STYLE = """
svg{font-family:system-ui,-apple-system,"Segoe UI",Helvetica,Arial,sans-serif;font-size:13px}
.back{fill:#ffffff}.plain{fill:#f2f5fa;stroke:#5b6b82}.strong{fill:#dcebff;stroke:#1f5fae}.pale{fill:#f7f7f4;stroke:#8a8a80}
rect.box{stroke-width:1.4}text{fill:#1c2430}text.title{font-weight:600;font-size:14px}text.soft{fill:#4d5a6b}
text.code{font-family:ui-monospace,Menlo,Consolas,monospace;font-size:12px}
.edge{fill:none;stroke:#4d5a6b;stroke-width:1.5}.head{fill:#4d5a6b}.halo{stroke:#ffffff;stroke-width:4;paint-order:stroke}
@media (prefers-color-scheme:dark){.back{fill:#10151d}.plain{fill:#1c2635;stroke:#8fa3c0}.strong{fill:#17365e;stroke:#7db4ff}
.pale{fill:#23241f;stroke:#a3a394}text{fill:#e8edf5}text.soft{fill:#b3c0d1}.edge{stroke:#b3c0d1}.head{fill:#b3c0d1}
.halo{stroke:#10151d}}
"""


class Box:
    def __init__(self, words, parts):
        self.name, self.kind = words[1], words[6]
        self.x, self.y, self.w, self.h = map(int, words[2:6])
        self.title, self.lines = parts[0] if parts else self.name, parts[1:]
        self.middle = self.x + self.w / 2, self.y + self.h / 2

    def border(self, point):
        """Where the way from the middle to a point leaves the box; straight down, up or to a side where the point stands beside it."""
        (px, py), (mx, my) = point, self.middle
        if self.x + 8 <= px <= self.x + self.w - 8:
            return px, (self.y if py < my else self.y + self.h)
        if self.y + 8 <= py <= self.y + self.h - 8:
            return (self.x if px < mx else self.x + self.w), py
        dx, dy = px - mx, py - my
        part = min(self.w / 2 / abs(dx) if dx else 9e9, self.h / 2 / abs(dy) if dy else 9e9)
        return mx + dx * part, my + dy * part


class Picture:
    """What stands in a text: the size, the title, the boxes by name, and the rest in the order of the text."""

    def __init__(self, file):
        self.size, self.title, self.boxes, self.edges = (0, 0), "", {}, []
        self.tiles, self.arrows, self.notes = [], [], []  # as they are drawn
        for line in file.read_text().splitlines():
            if line.strip() and not line.startswith("#"):
                self.take(file, *[part.strip() for part in line.split("|")])

    def take(self, file, head, *parts):
        kind, *words = head.split()
        text = parts[0] if parts else ""
        if kind == "size":
            self.size = (int(words[0]), int(words[1]))
        elif kind == "title":
            self.title = head[len("title ") :]
        elif kind == "box":
            self.boxes[words[0]] = Box([kind, *words], list(parts))
        elif kind == "tile":
            x, y, width, height = map(int, words[:4])
            self.tiles.append(f'<rect class="box {words[4]}" x="{x}" y="{y}" width="{width}" height="{height}" rx="4"/>')
            self.tiles += [text_at(x + width / 2, y + height / 2 + 4.5, text, "soft")] if text else []
        elif kind == "note":
            self.notes.append(text_at(int(words[0]), int(words[1]), text, "soft", "start"))
        elif kind == "edge":
            self.edges.append((words[0], words[1], points_of(words[2:]), text))
        elif kind == "arrow":
            self.arrows += drawn_way(points_of(words), text)
        else:
            sys.exit(f"{file}: {head}")


def points_of(words):
    return [tuple(float(n) for n in word.split(",")) for word in words]


def escaped(text):
    return text.replace("&", "&amp;").replace("<", "&lt;").replace(">", "&gt;")


def text_at(x, y, text, kinds="", anchor="middle"):
    if text.startswith("`"):
        text, kinds = text.strip("`"), f"{kinds} code"
    return f'<text class="{kinds.strip()}" x="{x:g}" y="{y:g}" text-anchor="{anchor}">{escaped(text)}</text>'


def drawn_box(box):
    x, first = box.middle[0], box.y + (box.h - 17 * len(box.lines)) / 2 + 4.5
    yield f'<rect class="box {box.kind}" x="{box.x}" y="{box.y}" width="{box.w}" height="{box.h}" rx="7"/>'
    yield text_at(x, first, box.title, "title")
    yield from (text_at(x, first + 17 * i, line, "soft") for i, line in enumerate(box.lines, 1))


def drawn_edge(boxes, edge):
    one, other, points, label = edge
    first, last = (points[0], points[-1]) if points else (boxes[other].middle, boxes[one].middle)
    return drawn_way([boxes[one].border(first), *points, boxes[other].border(last)], label)


def drawn_way(way, label):
    """An arrow by way of points, with its label over the middle one of its parts."""
    path = "M" + " L".join(f"{x:.1f} {y:.1f}" for x, y in way)
    yield f'<path class="edge" d="{path}" marker-end="url(#head)"/>'
    (ax, ay), (bx, by) = way[len(way) // 2 - 1 : len(way) // 2 + 1]
    for i, line in enumerate(label.split(" / ") if label else ()):
        yield text_at((ax + bx) / 2, (ay + by) / 2 - 6 + 15 * i, line, "soft halo")


def drawn(it):
    width, height = it.size
    out = [
        f'<svg xmlns="http://www.w3.org/2000/svg" viewBox="0 0 {width} {height}" width="{width}" height="{height}" role="img">',
        f"<title>{escaped(it.title)}</title>",
        f"<style>{STYLE}</style>",
        '<defs><marker id="head" viewBox="0 0 10 10" refX="9" refY="5" markerWidth="8" markerHeight="8" orient="auto">'
        '<path class="head" d="M0 1 L9 5 L0 9 z"/></marker></defs>',
        f'<rect class="back" width="{width}" height="{height}"/>',
    ]
    out += [line for edge in it.edges for line in drawn_edge(it.boxes, edge)]
    out += [line for box in it.boxes.values() for line in drawn_box(box)]
    return "\n".join([*out, *it.tiles, *it.arrows, *it.notes, "</svg>", ""])


def with_rooms(it):
    """The picture of the rooms: its text says where they stand, and crates.txt what they are, and which stands on which."""
    says, room_of, names, room = {}, {}, {}, ""
    for line in (DOCS.parent / "crates.txt").read_text().splitlines():
        head, _, rest = line.strip("# ").partition(":")
        if line.startswith("#"):
            room, says[head] = head, rest.strip()
        elif ":" in line:
            crate = head.split()[0]
            room_of[crate], names[crate] = room, rest.split()
    pairs = {(room_of[c], room_of[b]) for c, below in names.items() for b in below if b in room_of}
    pairs = {(a, b) for a, b in pairs if a != b and OUTSIDE not in (a, b)}
    it.boxes = {name: box for name, box in it.boxes.items() if name in says}
    missing = set(says) - {OUTSIDE} - set(it.boxes)
    if missing:
        sys.exit(f"docs/rooms.txt has no box for {', '.join(sorted(missing))}")
    for box in it.boxes.values():
        box.lines = box.lines or textwrap.wrap(says[box.name], box.w // 7)

    def reached(start):
        return {start}.union(*(reached(b) for a, b in pairs if a == start))

    points = {(one, other): by for one, other, by, _ in it.edges}
    direct = {(a, b) for a, b in pairs if not any(b in reached(c) for x, c in pairs if x == a and c != b)}
    it.edges = [(a, b, points.get((a, b), []), "") for a, b in sorted(direct)]
    return it


def main():
    asked = argparse.ArgumentParser(description=__doc__.split("\n")[0])
    asked.add_argument("--check", action="store_true", help="write nothing, and end with 1 where a picture is an old one")
    check, old = asked.parse_args().check, 0
    for source in sorted(DOCS.glob("*.txt")):
        it = Picture(source)
        text, file = drawn(with_rooms(it) if source.stem == "rooms" else it), source.with_suffix(".svg")
        if check and (not file.exists() or file.read_text() != text):
            print(f"docs/{file.name} isn't what tools/pictures.py draws", file=sys.stderr)
            old = 1
        elif not check:
            file.write_text(text)
    return old


if __name__ == "__main__":
    sys.exit(main())
