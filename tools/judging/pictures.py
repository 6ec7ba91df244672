"""Pictures in files: PPM, PAM, Y4M, and raw planes. What is read of each is three planes of 16-bit numbers."""
import os
import re
import sys
from array import array
from collections import namedtuple

# One side of a conversion: its planes' names, and their depths.
Side = namedtuple("Side", "names depths")

# How a file holds its picture. Samples begin at byte `start`. `largest` is what the header says the largest sample is, or None for a raw file,
# which does not say its size either. Planes of a PPM or PAM are its channels, and a channel is every so many samples; those of the others follow
# one another, and have 0 for channels.
Layout = namedtuple("Layout", "kind start width height largest channels is_high_first")

Picture = namedtuple("Picture", "width height planes")


class Fault(Exception):
    """Why a file cannot be judged, in words."""


# ---- headers

_SPACE = rb"(?:[ \t\n\v\f\r]|#[^\n\r]*[\n\r])"
_PPM = re.compile(rb"P6" + (_SPACE + rb"+(\d{1,9})") * 3 + _SPACE)
_Y4M = re.compile(rb"YUV4MPEG2((?: [^ \n]+)*)\nFRAME[^\n]*\n")
_CHROMA = re.compile(r"444(?:p(9|1[0-6]))?")


def _is_number(word):
    return re.fullmatch("[0-9]{1,9}", word)


def _interleaved(kind, start, width, height, largest, channels):
    """Of a PPM or a PAM. Netpbm has the high byte first."""
    if not 0 < largest < 65536:
        raise Fault("its MAXVAL is %d, and a %s has 1 to 65535 there" % (largest, kind))
    return Layout(kind, start, width, height, largest, channels, True)


def _ppm(data):
    header = _PPM.match(data)
    if not header:
        raise Fault("it begins with P6, and then width, height and MAXVAL do not follow as they do in a PPM")
    return _interleaved("PPM", header.end(), *map(int, header.groups()), 3)


def _pam(data):
    end = re.search(rb"^[ \t]*ENDHDR[ \t]*\n", data, re.M)
    lines = [line.split() for line in data[: end.start()].decode("latin-1").split("\n") if line[:1] != "#"] if end else []
    fields = {words[0]: words[1] for words in lines if len(words) == 2 and _is_number(words[1])}
    try:
        width, height, channels, largest = [int(fields[name]) for name in ("WIDTH", "HEIGHT", "DEPTH", "MAXVAL")]
    except KeyError as missing:
        raise Fault("it begins with P7, and has no %s line as a PAM has one" % (missing.args[0] if end else "ENDHDR"))
    if channels not in (3, 4):
        raise Fault("its DEPTH is %d, and 3 channels are needed, or 4 of which the last is not looked at" % channels)
    return _interleaved("PAM", end.end(), width, height, largest, channels)


def _y4m(data):
    header = _Y4M.match(data)
    words = header[1].decode("latin-1").split() if header else []
    fields = {word[0]: word[1:] for word in words}
    if not all(_is_number(fields.get(name, "")) for name in "WH"):
        raise Fault("it begins with YUV4MPEG2, and then W, H and FRAME do not follow as they do in a Y4M")
    chroma = _CHROMA.fullmatch(fields.get("C", "420"))
    if not chroma:
        raise Fault("its chroma is C%s, and only C444 and C444p9 to C444p16 have a Cb and a Cr for each Y" % fields.get("C", "420"))
    largest = 2 ** int(chroma[1] or 8) - 1
    return Layout("Y4M", header.end(), int(fields["W"]), int(fields["H"]), largest, 0, False)


def layout(data):
    """How a file's bytes hold a picture, by how they begin."""
    if re.match(rb"P6[\s#]", data):
        return _ppm(data)
    if data.startswith(b"P7\n"):
        return _pam(data)
    if data.startswith(b"YUV4MPEG2"):
        return _y4m(data)
    return Layout("raw", 0, None, None, None, 0, False)


# ---- what the header says beside the setting


def held_to(found, side):
    """A header that says what the setting does not is a fault."""
    if found.kind == "Y4M" and side.names[0] != "Y":
        raise Fault("it is a Y4M, which holds Y, Cb, Cr, and stands where R, G, B belongs; are source and claimed in each other's place?")
    depth = max(side.depths)
    if found.largest is None or not 8 <= depth <= 16:  # the box refuses such a depth
        return
    if found.largest != 2 ** depth - 1:
        names = ", ".join(side.names)
        raise Fault(
            "by its header the largest sample is %d, and by the setting it is %d, at the %d bits of %s; correct the depth, or save the picture at "
            "that depth" % (found.largest, 2 ** depth - 1, depth, names)
        )


# ---- samples


def _bytes_each(found, side):
    is_byte = max(side.depths) <= 8 if found.largest is None else found.largest < 256
    return 1 if is_byte else 2


def _whole(data, found, each):
    """A file that is just as long as its picture."""
    needed = found.width * found.height * (found.channels or 3) * each
    there = len(data) - found.start
    if there != needed:
        more = "is cut short" if there < needed else "goes on after the picture"
        raise Fault(
            "it %s: %d by %d pixels with %d samples of %d byte%s are %d bytes, and %d are there%s"
            % (more, found.width, found.height, found.channels or 3, each, "s" * (each > 1), needed, there, _hint(found))
        )


def _hint(found):
    if found.kind == "Y4M":
        return "; one frame is read, and no more"
    if found.kind == "raw":
        return "; is it of another size or depth, or of a format that is not read here?"
    return ""


def _widened(samples):
    """Bytes as 16-bit numbers."""
    words = bytearray(2 * len(samples))
    words[0 if sys.byteorder == "little" else 1 :: 2] = samples
    return array("H", words)


def _words(data, is_high_first):
    words = array("H", data)
    if is_high_first != (sys.byteorder == "big"):
        words.byteswap()
    return words


def planes(data, found, side):
    """The three planes of a file whose layout has its size."""
    each = _bytes_each(found, side)
    _whole(data, found, each)
    count = found.width * found.height
    samples = data[found.start :] if each == 1 else _words(data[found.start :], found.is_high_first)
    if found.channels:
        three = [samples[i :: found.channels] for i in range(3)]
    else:
        three = [samples[i * count : (i + 1) * count] for i in range(3)]
    return [_widened(plane) for plane in three] if each == 1 else three


# ---- files


def _contents(name):
    try:
        with open(name, "rb") as file:
            return file.read()
    except OSError as fault:
        raise Fault("it cannot be read: %s" % fault.strerror)


def _of_file(name, work, *more):
    """What is done with a file; its faults are said with its name."""
    try:
        return work(*more)
    except Fault as fault:
        raise Fault("%s: %s" % (name, fault))


def _size_of(names, layouts, size):
    """The one size of all that have one: --size, and headers."""
    known = [("--size", size)] if size else []
    known += [(name, (found.width, found.height)) for name, found in zip(names, layouts) if found.kind != "raw"]
    if not known:
        raise Fault("%s and %s are raw, as they begin neither as PPM or PAM nor as Y4M: add --size WIDTHxHEIGHT" % tuple(names))
    for name, other in known[1:]:
        if other != known[0][1]:
            raise Fault("%s says %d by %d, and %s %d by %d; one size is needed" % (known[0][0], *known[0][1], name, *other))
    return known[0][1]


def read(names, sides, size):
    """Two pictures of one size: files by their names, each with its side."""
    contents = [_of_file(name, _contents, name) for name in names]
    layouts = [_of_file(name, layout, data) for name, data in zip(names, contents)]
    for name, found, side in zip(names, layouts, sides):
        _of_file(name, held_to, found, side)
    width, height = _size_of(names, layouts, size)
    pictures = []
    for name, data, found, side in zip(names, contents, layouts, sides):
        found = found._replace(width=width, height=height)
        pictures.append(Picture(width, height, _of_file(name, planes, data, found, side)))
    return pictures


def write_ppm(name, width, height, channels):
    """Three channels of bytes as a PPM."""
    pixels = bytearray(3 * width * height)
    for i, channel in enumerate(channels):
        pixels[i::3] = channel
    try:
        with open(name, "wb") as file:
            file.write(b"P6\n%d %d\n255\n" % (width, height) + pixels)
    except OSError as fault:
        raise Fault("%s: it cannot be written: %s" % (name, fault.strerror))


def is_same_file(name, other):
    return os.path.exists(name) and os.path.exists(other) and os.path.samefile(name, other)
