"""Pictures with every combination of three samples of 8 bits, once each, in the formats that converters read. Pixel i has the three bytes of i, the
highest one first: they are R, G, B or Y, Cb, Cr."""
import os
import struct
import zlib

SIDE = 4096
COUNT = SIDE * SIDE

# Narrow range: Y from black to white, Cb and Cr from end to end.
_NOMINAL_Y, _NOMINAL_C = range(16, 236), range(16, 241)
NOMINAL_SIZE = 4500, 2475


def planes():
    low = bytes(range(256)) * 65536
    middle = b"".join(bytes([v]) * 256 for v in range(256)) * 256
    high = b"".join(bytes([v]) * 65536 for v in range(256))
    return [high, middle, low]


def interleaved(three):
    pixels = bytearray(3 * len(three[0]))
    for i, plane in enumerate(three):
        pixels[i::3] = plane
    return bytes(pixels)


def place(pixel):
    return pixel[0] << 16 | pixel[1] << 8 | pixel[2]


def pixel(row, column):
    return tuple((row * SIDE + column).to_bytes(3, "big"))


def ppm(pixels, width=SIDE, height=SIDE):
    return b"P6\n%d %d\n255\n" % (width, height) + pixels


def _y4m(three, color_range):
    return b"YUV4MPEG2 W%d H%d F25:1 Ip A1:1 C444 XYSCSS=444 XCOLORRANGE=%s\nFRAME\n" % (SIDE, SIDE, color_range) + b"".join(three)


def _chunk(kind, data):
    return struct.pack(">I", len(data)) + kind + data + struct.pack(">I", zlib.crc32(kind + data))


def _png(pixels):
    rows = b"".join(b"\0" + pixels[i : i + 3 * SIDE] for i in range(0, len(pixels), 3 * SIDE))
    header = struct.pack(">IIBBBBB", SIDE, SIDE, 8, 2, 0, 0, 0)
    return b"\x89PNG\r\n\x1a\n" + _chunk(b"IHDR", header) + _chunk(b"IDAT", zlib.compress(rows, 1)) + _chunk(b"IEND", b"")


def nominal(samples, each):
    """Of a picture of all combinations those within nominal range; `each` is how many bytes a pixel has here."""
    first, last = _NOMINAL_C[0], _NOMINAL_C[-1] + 1
    rows = (place((y, cb, 0)) for y in _NOMINAL_Y for cb in _NOMINAL_C)
    return b"".join(samples[each * (row + first) : each * (row + last)] for row in rows)


def write_all(folder):
    """The pictures that converters are given. A source of Y, Cb, Cr and one of R, G, B have the same numbers."""
    three = planes()
    pixels = interleaved(three)
    files = {
        "all.ppm": ppm(pixels),
        "all.rgb": pixels,
        "all.png": _png(pixels),
        "all.yuv": b"".join(three),
        "narrow.y4m": _y4m(three, b"LIMITED"),
        "full.y4m": _y4m(three, b"FULL"),
        "nominal.yuv": b"".join(nominal(plane, 1) for plane in three),
    }
    for name, data in files.items():
        with open(os.path.join(folder, name), "wb") as file:
            file.write(data)
