"""A picture as a browser saves it: PNG of 8 bits a colour, not interlaced, read by the standard library."""
import struct
import zlib

SIGNATURE = b"\x89PNG\r\n\x1a\n"
# colours of a kind of PNG
CHANNELS = {2: 3, 6: 4}


def chunks(data):
    """The kind and the bytes of each part of a PNG."""
    if not data.startswith(SIGNATURE):
        raise ValueError("this is no PNG")
    at = len(SIGNATURE)
    while at < len(data):
        (length,) = struct.unpack(">I", data[at : at + 4])
        yield data[at + 4 : at + 8], data[at + 8 : at + 8 + length]
        at += 12 + length


def nearest(left, up, corner):
    """Paeth's choice of three neighbours."""
    guess = left + up - corner
    return min((abs(guess - left), 0, left), (abs(guess - up), 1, up), (abs(guess - corner), 2, corner))[2]


def unfiltered(kind, line, above, step):
    """The bytes of a line, of what is stored of it and the line above."""
    line = bytearray(line)
    for at in range(len(line)):
        left, up = line[at - step] if at >= step else 0, above[at]
        corner = above[at - step] if at >= step else 0
        line[at] = (line[at] + (0, left, up, (left + up) // 2, nearest(left, up, corner))[kind]) & 255
    return line


class Picture:
    """The colours of a picture by place."""

    def __init__(self, data):
        parts = list(chunks(data))
        self.wide, self.high, depth, kind, _, _, interlaced = struct.unpack(">IIBBBBB", dict(parts)[b"IHDR"])
        if depth != 8 or kind not in CHANNELS or interlaced:
            raise ValueError("this is another kind of PNG")
        self.step = CHANNELS[kind]
        stored = zlib.decompress(b"".join(part for name, part in parts if name == b"IDAT"))
        long, above = self.wide * self.step, bytearray(self.wide * self.step)
        self.lines = []
        for row in range(self.high):
            at = row * (long + 1)
            above = unfiltered(stored[at], stored[at + 1 : at + 1 + long], above, self.step)
            self.lines.append(above)

    def at(self, x, y):
        """Red, green and blue of a place."""
        return tuple(self.lines[y][x * self.step : x * self.step + 3])
