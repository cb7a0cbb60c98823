"""Pictures of the page, in bindings/web/tests/screenshots, and how another differs: for bindings/web/tests/page.py.

A picture has an eighth of the page's width, so that other fonts and another number of a text differ little in it, and another
place or colour of a part much."""
import base64
import pathlib
import struct
import zlib

FOLDER = pathlib.Path(__file__).with_name("screenshots")
SCALE = 0.125
# The width and height of the window, and whether it is light or dark.
LOOKS = {"wide": (1280, 800, "light"), "narrow": (400, 800, "light"), "dark": (1280, 800, "dark")}
TABS = ("Overview", "Layout", "Segments", "Symbols")
# The sides of the squares that are compared, and by how much the mean of one may differ, of 255.
SQUARE, MOST = 8, 40


def decoded(data):
    """The width, and the rows of grey values, of a PNG of 8 bits without interlacing."""
    at, packed, width, height, kind = 8, b"", 0, 0, 0
    while at < len(data):
        size, name = struct.unpack(">I4s", data[at : at + 8])
        if name == b"IHDR":
            width, height, _, kind = struct.unpack(">IIBB", data[at + 8 : at + 18])
        packed += data[at + 8 : at + 8 + size] if name == b"IDAT" else b""
        at += 12 + size
    step = {0: 1, 2: 3, 6: 4}[kind]
    raw, before, rows = zlib.decompress(packed), bytes(width * step), []
    for row in range(height):
        start = row * (width * step + 1)
        before = unfiltered(raw[start], raw[start + 1 : start + 1 + width * step], before, step)
        rows.append([sum(before[it : it + min(step, 3)]) // min(step, 3) for it in range(0, len(before), step)])
    return width, rows


def unfiltered(kind, line, above, step):
    """The bytes of a line (PNG, "Filtering")."""
    found = bytearray(line)
    for at in range(len(found)):
        left, corner = (found[at - step], above[at - step]) if at >= step else (0, 0)
        guess = left + above[at] - corner
        nearest = min((left, above[at], corner), key=lambda it: abs(guess - it))
        found[at] = (line[at] + (0, left, above[at], (left + above[at]) // 2, nearest)[kind]) % 256
    return bytes(found)


def squares(picture):
    """The mean of each square, by its column and row."""
    width, rows = picture
    found = {}
    for top in range(0, len(rows) - SQUARE + 1, SQUARE):
        for left in range(0, width - SQUARE + 1, SQUARE):
            found[left, top] = sum(sum(row[left : left + SQUARE]) for row in rows[top : top + SQUARE]) / SQUARE**2
    return found


def compare(page, name, width, height, is_written):
    """How what the page shows differs from its picture, as a text: empty if it doesn't, and where the picture is written."""
    clip = {"x": 0, "y": 0, "width": width, "height": height, "scale": SCALE}
    shown = base64.b64decode(page.send("Page.captureScreenshot", format="png", clip=clip)["data"])
    path = FOLDER / f"{name}.png"
    if is_written:
        FOLDER.mkdir(exist_ok=True)
        path.write_bytes(shown)
        return ""
    one, other = squares(decoded(shown)), squares(decoded(path.read_bytes()))
    if one.keys() != other.keys():
        return "another size"
    place = max(one, key=lambda it: abs(one[it] - other[it]))
    difference = abs(one[place] - other[place])
    return f"{difference:.0f} of 255 at {[int(it / SCALE) for it in place]}" if difference > MOST else ""
