#!/usr/bin/env python3
"""Draws the plugin's icon, a track that goes round a pad from one pad to another, as PNG files of 24 and 64 pixels.

    python3 kicad/draw_icon.py

Only Python's own library: each pixel is the mean of 8 by 8 points of a picture on a square of 24 by 24.
"""
from __future__ import annotations

import struct
import zlib
from pathlib import Path
from typing import List, Tuple

HERE = Path(__file__).resolve().parent
FINE = 8
Colour = Tuple[int, int, int, int]
COPPER: Colour = (200, 52, 52, 255)
PAD: Colour = (211, 160, 32, 255)
HOLE: Colour = (250, 250, 250, 255)
CLEAR: Colour = (0, 0, 0, 0)
TRACK = ((4.0, 18.5), (4.0, 6.0), (20.0, 6.0), (20.0, 18.5))
PADS = ((4.0, 18.5), (12.0, 14.5), (20.0, 18.5))
HALF_WIDTH, PAD_RADIUS, HOLE_RADIUS = 1.6, 3.6, 1.5


def distance(x: float, y: float, a: Tuple[float, float], b: Tuple[float, float]) -> float:
    """From a point to the straight line between two others."""
    dx, dy = b[0] - a[0], b[1] - a[1]
    length = dx * dx + dy * dy
    along = 0.0 if length == 0 else max(0.0, min(1.0, ((x - a[0]) * dx + (y - a[1]) * dy) / length))
    return ((x - a[0] - along * dx) ** 2 + (y - a[1] - along * dy) ** 2) ** 0.5


def colour_at(x: float, y: float) -> Colour:
    """The picture's colour at a point."""
    to_pad = min(distance(x, y, pad, pad) for pad in PADS)
    if to_pad <= HOLE_RADIUS:
        return HOLE
    if to_pad <= PAD_RADIUS:
        return PAD
    if min(distance(x, y, a, b) for a, b in zip(TRACK, TRACK[1:])) <= HALF_WIDTH:
        return COPPER
    return CLEAR


def pixel(column: int, row: int, size: int) -> bytes:
    """The mean colour of a pixel, with what is clear weighing nothing."""
    step = 24 / size / FINE
    points = [colour_at((column * FINE + i + 0.5) * step, (row * FINE + j + 0.5) * step)
              for i in range(FINE) for j in range(FINE)]
    seen = [point for point in points if point[3]]
    if not seen:
        return bytes(4)
    means = [round(sum(point[part] for point in seen) / len(seen)) for part in range(3)]
    return bytes(means + [round(255 * len(seen) / len(points))])


def chunk(kind: bytes, data: bytes) -> bytes:
    """A part of a PNG file."""
    return struct.pack(">I", len(data)) + kind + data + struct.pack(">I", zlib.crc32(kind + data))


def png(size: int) -> bytes:
    """The icon of so many pixels a side."""
    rows: List[bytes] = [b"\0" + b"".join(pixel(column, row, size) for column in range(size)) for row in range(size)]
    return (b"\x89PNG\r\n\x1a\n" + chunk(b"IHDR", struct.pack(">IIBBBBB", size, size, 8, 6, 0, 0, 0))
            + chunk(b"IDAT", zlib.compress(b"".join(rows), 9)) + chunk(b"IEND", b""))


def main() -> None:
    (HERE / "dsnroute_kicad" / "icon.png").write_bytes(png(24))
    (HERE / "icon-64.png").write_bytes(png(64))


if __name__ == "__main__":
    main()
