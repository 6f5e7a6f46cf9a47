#!/usr/bin/python3
"""Takes the pictures of the pages in docs/, of the village of `make demo`, by Debian's chromium without a window.

    MOO=PROGRAM docs/take_pictures.py [FOLDER]

It needs what `make demo` needs, and chromium, chromium-driver and python3-selenium. The pictures go to FOLDER, or else to docs/. They have
few colours, so that they are small.
"""

from __future__ import annotations

import collections
import os
import re
import struct
import subprocess
import sys
import zlib
from pathlib import Path
from typing import Any, Optional, Tuple

TOP = Path(__file__).resolve().parents[1]
sys.dont_write_bytecode = True
sys.path.insert(0, str(TOP))
from tests.support.browser import browser, lacking, picture  # noqa: E402

MAKING = "/do/create?parent=generic+lamp&names=lantern%0Atorch&place=Ada%27s+Hut"
# The file, who looks, the path, the browser, and how many pixels of the page are kept from the top; None: all. If the path is that of a
# form its button 'Preview' is pressed.
PICTURES: tuple[tuple[str, str, str, dict[str, Any], Optional[int]], ...] = (
    ("page-world.png", "cleo", "/", {"width": 1000, "height": 700}, None),
    ("page-object.png", "cleo", "/o/7", {"width": 1000, "height": 700}, 900),
    ("page-history.png", "wizard", "/history", {"width": 900, "height": 600}, None),
    ("page-map-dark.png", "cleo", "/map/exits", {"width": 1000, "height": 700, "dark": True}, 720),
    ("page-preview.png", "ada", MAKING, {"width": 900, "height": 700}, 880),
    ("page-petitions.png", "wizard", "/petitions", {"width": 900, "height": 700}, None),
    ("page-object-narrow.png", "cleo", "/o/7", {"width": 320, "height": 640}, 1000),
)
COLOURS = 48
Pixel = Tuple[int, ...]


def main() -> None:
    """Takes all pictures."""
    if why := lacking():
        sys.exit(why)
    folder = Path(sys.argv[1]) if len(sys.argv) > 1 else TOP / "docs"
    demo = subprocess.Popen([TOP / "web/moo-demo", "--port", "0"], stdout=subprocess.PIPE, text=True)
    try:
        said = ""
        assert demo.stdout
        while "Ctrl-C" not in said:
            line = demo.stdout.readline()
            if not line:
                sys.exit("the demo doesn't start")
            said += line
        (home, *_) = re.findall(r"http://127\.0\.0\.1:\d+", said)
        passwords = dict(re.findall(r"^    (\w+) +([0-9a-f]{8}) ", said, re.M))
        for name, who, path, how, height in PICTURES:
            take(folder / name, home, path, (who, passwords[who]), how, height)
            print(f"{name}: {(folder / name).stat().st_size:,} bytes")
    finally:
        demo.terminate()
        demo.wait()


def take(file: Path, home: str, path: str, person: tuple[str, str], how: dict[str, Any], height: Optional[int]) -> None:
    """Takes one picture, as this person."""
    driver = browser(**how)
    try:
        driver.get(f"{home}/in?to={path}")
        driver.switch_to.active_element.send_keys(person[0])
        driver.find_element("name", "password").send_keys(person[1] + "\n")
        driver.get(home + path)
        if path.startswith("/do/"):
            driver.find_element("css selector", "button.go[value=preview]").click()
        picture(driver, file, height)
    finally:
        driver.quit()
    file.write_bytes(with_few_colours(file.read_bytes()))


def with_few_colours(png: bytes) -> bytes:
    """The same picture with at most `COLOURS` colours: the most frequent ones; each other becomes the nearest of these."""
    width, height, lines = pixels_of(png)
    counts = collections.Counter(pixel for line in lines for pixel in line)
    palette = [colour for colour, _ in counts.most_common(COLOURS)]
    places = {colour: nearest(colour, palette) for colour in counts}
    body = b"".join(b"\0" + bytes(places[pixel] for pixel in line) for line in lines)
    head = struct.pack(">IIBBBBB", width, height, 8, 3, 0, 0, 0)
    chunks = {b"IHDR": head, b"PLTE": b"".join(map(bytes, palette)), b"IDAT": zlib.compress(body, 9), b"IEND": b""}
    return b"\x89PNG\r\n\x1a\n" + b"".join(chunk(kind, text) for kind, text in chunks.items())


def nearest(colour: Pixel, palette: list[Pixel]) -> int:
    """The place in a palette of the colour that is nearest to one."""
    return min(range(len(palette)), key=lambda place: sum((one - other) ** 2 for one, other in zip(palette[place], colour)))


def chunk(kind: bytes, text: bytes) -> bytes:
    """A chunk of a PNG."""
    return struct.pack(">I", len(text)) + kind + text + struct.pack(">I", zlib.crc32(kind + text))


def pixels_of(png: bytes) -> tuple[int, int, list[list[Pixel]]]:
    """The width, the height and the lines of pixels of a picture with 8 bits of red, green and blue, and perhaps of opacity."""
    place, data = 8, b""
    while place < len(png):
        length, kind = struct.unpack(">I4s", png[place : place + 8])
        text = png[place + 8 : place + 8 + length]
        if kind == b"IHDR":
            width, height, depth, colours, *_ = struct.unpack(">IIBBBBB", text)
        data += text if kind == b"IDAT" else b""
        place += length + 12
    size = {2: 3, 6: 4}[colours]
    assert depth == 8
    raw, former = zlib.decompress(data), bytes(width * size)
    lines: list[list[Pixel]] = []
    for row in range(height):
        start = row * (width * size + 1)
        former = unfiltered(raw[start], raw[start + 1 : start + 1 + width * size], former, size)
        lines.append([tuple(former[at : at + 3]) for at in range(0, width * size, size)])
    return width, height, lines


def unfiltered(kind: int, line: bytes, former: bytes, size: int) -> bytes:
    """A line of a picture without its filter (the PNG specification, section 9)."""
    made = bytearray(line)
    for at, byte in enumerate(line):
        left = made[at - size] if at >= size else 0
        up, corner = former[at], former[at - size] if at >= size else 0
        if kind == 4:
            guess = left + up - corner
            near = min((abs(guess - one), order, one) for order, one in enumerate((left, up, corner)))[2]
        else:
            near = (0, left, up, (left + up) // 2)[kind]
        made[at] = (byte + near) & 255
    return bytes(made)


if __name__ == "__main__":
    os.environ.setdefault("MOO", str(TOP / "crates/moo/out/moo"))
    main()
