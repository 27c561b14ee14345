#!/usr/bin/env python3
"""Writes the sample vessels and the inputs to refuse, as streams of the program's records, beside this file.

    tun.bin           a tun with its lid shut: a standing cylinder of 16 sides on a cone, a flat top, and on it a
                      manway, which is a neck with a lid. Flood mode, 40 cells along the height.
    tun-open.bin      the same tun with the lid left out, so that its inside is reached from outside.
    tun-cavities.bin  the tun with its lid shut and a sealed float in it, in the mode that looks for cavities:
                      the float's hollow is no room of the tun.
    refused/*.bin     inputs that are refused; the name begins with the number. `refused/EXPECTED` has a line for
                      each.

What the program says of a vessel NAME.bin stands in NAME.out. Run it as `python3 vessels/make.py`; it needs
nothing but Python 3, and writes the same bytes each time.
"""

import math
import os
import struct

HERE = os.path.dirname(os.path.abspath(__file__))

SURFACE, FLOOD, CAVITIES = 0, 1, 2

# ---- records


def head_by_size(mode, size):
    return b"Vh" + struct.pack("<BBf", 0, mode, size)


def head_by_resolution(mode, resolution):
    return b"Vh" + struct.pack("<BBI", 1, mode, resolution)


def point(x, y, z):
    return b"Vp" + struct.pack("<fff", x, y, z)


def triangle(a, b, c):
    return b"Vt" + struct.pack("<III", a, b, c)


END = b"Vz"


def stream(head, points, triangles):
    return head + b"".join(point(*p) for p in points) + b"".join(triangle(*t) for t in triangles) + END


# ---- the tun

SIDES = 16


class Vessel:
    """Points and triangles, which are added part by part."""

    def __init__(self):
        self.points = []
        self.triangles = []

    def tip(self, z):
        """A point on the vessel's axis."""
        self.points.append((0.0, 0.0, z))
        return len(self.points) - 1

    def ring(self, radius, z):
        """A ring of points about the axis, and answers their numbers."""
        first = len(self.points)
        for n in range(SIDES):
            turn = 2 * math.pi * n / SIDES
            self.points.append((radius * math.cos(turn), radius * math.sin(turn), z))
        return range(first, first + SIDES)

    def fan(self, ring, tip):
        """The triangles between a ring and a tip."""
        for n in range(SIDES):
            self.triangles.append((ring[n], ring[(n + 1) % SIDES], tip))

    def band(self, low, high):
        """The triangles between two rings."""
        for n in range(SIDES):
            m = (n + 1) % SIDES
            self.triangles.append((low[n], low[m], high[n]))
            self.triangles.append((low[m], high[m], high[n]))

    def box(self, low, high):
        """A closed box."""
        first = len(self.points)
        for n in range(8):
            self.points.append(tuple((high if n >> a & 1 else low)[a] for a in range(3)))
        for a, b, c, d in [(0, 1, 3, 2), (4, 5, 7, 6), (0, 1, 5, 4), (2, 3, 7, 6), (0, 2, 6, 4), (1, 3, 7, 5)]:
            self.triangles.append((first + a, first + b, first + c))
            self.triangles.append((first + a, first + c, first + d))


def tun(lid):
    """The tun, in metres: a cone of 0.6, a wall of 2, a neck of 0.4."""
    v = Vessel()
    outlet = v.tip(0.0)
    foot = v.ring(1.0, 0.6)
    shoulder = v.ring(1.0, 2.6)
    neck = v.ring(0.4, 2.6)
    rim = v.ring(0.4, 3.0)
    middle = v.tip(3.0)
    v.fan(foot, outlet)
    v.band(foot, shoulder)
    v.band(shoulder, neck)
    v.band(neck, rim)
    if lid:
        v.fan(rim, middle)
    return v


def tun_with_float():
    v = tun(True)
    v.box((-0.4, -0.4, 1.2), (0.4, 0.4, 1.8))
    return v


def vessels():
    head = head_by_resolution(FLOOD, 40)
    for name, v in [("tun", tun(True)), ("tun-open", tun(False))]:
        yield name, stream(head, v.points, v.triangles)
    v = tun_with_float()
    yield "tun-cavities", stream(head_by_resolution(CAVITIES, 40), v.points, v.triangles)


# ---- inputs to refuse


def refused():
    """Names, whose first word is the number, and bytes."""
    size = head_by_size(FLOOD, 1.0)
    resolution = head_by_resolution(FLOOD, 8)
    dot = point(0.0, 0.0, 0.0)
    flat = triangle(0, 0, 0)
    two = [(0.0, 0.0, 0.0), (2.0, 2.0, 2.0)]
    yield "01-257-points", size + dot * 257 + END
    yield "01-257-triangles", size + dot + flat * 257 + END
    yield "01-257th-point-after-triangle", size + dot * 256 + flat + dot + END
    yield "02-no-points", size + END
    yield "02-no-points-for-a-triangle", size + flat + END
    yield "03-nan-point", stream(size, [(0.0, math.nan, 0.0)], [])
    yield "03-infinite-point", stream(size, [(0.0, 0.0, -math.inf)], [])
    yield "03-far-point", stream(size, two + [(1048576.125, 0.0, 0.0)], [])
    yield "04-missing-point", stream(size, two, [(0, 1, 1), (0, 1, 2)])
    yield "05-size-too-small", stream(head_by_size(FLOOD, 0.0009), two, [])
    yield "05-size-too-large", stream(head_by_size(FLOOD, 1048577.0), two, [])
    yield "05-size-negative", stream(head_by_size(FLOOD, -1.0), two, [])
    yield "05-size-nan", stream(head_by_size(FLOOD, math.nan), two, [])
    yield "06-resolution-1", stream(head_by_resolution(FLOOD, 1), two, [])
    yield "06-resolution-255", stream(head_by_resolution(FLOOD, 255), two, [])
    yield "07-one-point-by-resolution", stream(resolution, two[:1], [])
    yield "08-axis-of-257-cells", stream(size, [(0.0, 0.0, 0.0), (0.0, 255.5, 0.0)], [])
    yield "08-32800-cells", stream(size, [(0.0, 0.0, 0.0), (19.0, 39.0, 40.0)], [])
    yield "16-wrong-mark", size + b"Vx" + dot[2:] + END
    yield "16-wrong-first-mark", b"Wh" + size[2:] + dot + END
    yield "16-no-head", dot + flat + END
    yield "16-second-head", size + dot + size + END
    yield "16-point-after-triangle", size + dot + flat + dot + END
    yield "16-unknown-way", b"Vh" + struct.pack("<BBf", 2, FLOOD, 1.0) + dot + END
    yield "16-unknown-mode", b"Vh" + struct.pack("<BBf", 0, 3, 1.0) + dot + END
    yield "16-byte-after-the-end", size + dot + END + b"V"
    yield "16-end-twice", size + dot + END + END
    yield "17-empty", b""
    yield "17-lone-byte", b"V"
    yield "17-cut-head", size[:5]
    yield "17-cut-point", size + dot[:13]
    yield "17-cut-triangle", size + dot + flat[:2]
    yield "17-lone-byte-for-a-mark", size + dot + b"W"
    yield "17-no-end", size + dot + flat


# ---- files


def write(name, content):
    with open(os.path.join(HERE, name), "wb") as f:
        f.write(content)


def main():
    os.makedirs(os.path.join(HERE, "refused"), exist_ok=True)
    for name, content in vessels():
        write(name + ".bin", content)
    lines = []
    for name, content in refused():
        write(os.path.join("refused", name + ".bin"), content)
        lines.append(f"{name}.bin: refused {int(name[:2])}\n")
    write(os.path.join("refused", "EXPECTED"), "".join(lines).encode())


main()
