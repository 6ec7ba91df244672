"""Corkplover for Python: R, G, B into luma and chroma or back, and the colour labels of media files.

The manual is include/corkplover.h; names, answers and refusals are the same here, and a refused call raises Refusal. What a
caller owes the library cannot be got wrong here: numbers are tested before they are handed on, and every plane or record that the
library sees is a buffer of this module's own, so that none overlaps another and every length is true.

The shared object is the one that the variable CORKPLOVER_LIBRARY names, or else libcorkplover.so beside this file.
"""
import ctypes
import os
from array import array
from collections import namedtuple

# The texts of H.273 that number codes. Every other number is refused, and a setting has no edition by default: so none is guessed.
EDITION_2021, EDITION_DRAFT, EDITION_PUBLISHED = 1, 2, 3

Setting = namedtuple("Setting", "primaries transfer matrix rgb_depth y_depth c_depth rgb_full ycc_full edition")
Levels = namedtuple("Levels", "y cb cr")
# Where a claimed frame is wrong: row and column of the first wrong pixel, and how many pixels are wrong in the whole picture.
Difference = namedtuple("Difference", "row column wrong")

# What an edition says of one code point. What a media file says of its picture is a ColourLabel.
ASSIGNED, UNSPECIFIED, RESERVED = range(3)

# How many bytes a colour record of a media file has, nclx of ISO/IEC 14496-12, and how many of them, the last, are the label itself.
RECORD_BYTES, LABEL_PART_BYTES = 11, 7

ColourLabel = namedtuple("ColourLabel", "primaries transfer matrix full")
# Which of two records won, CONTAINER or STREAM, and its last bytes, which are the label itself.
Picked = namedtuple("Picked", "winner part")
CONTAINER, STREAM = "container", "stream"

_TEXTS = {
    0: "accepted",
    1: "the matrix code is reserved",
    2: "the matrix code is 2, unspecified",
    3: "the matrix code is known and not served",
    4: "the primaries code is reserved",
    5: "the transfer code is reserved",
    6: "a depth is not served",
    7: "depths or range flags do not agree with the matrix",
    8: "the width, the height or a stride is not served",
    9: "a plane is too short for the picture",
    10: "a source sample is too large for its depth",
    11: "the meter needs a luma matrix, the image check a lossless setting",
    12: "the edition is none of 1 (2021), 2 (draft) and 3 (published)",
    20: "a colour record has 11 bytes, and not any other number",
    21: "the colour record does not begin with the letters nclx",
    22: "a code of the colour record is above 255",
    23: "a reserved bit of the colour record is set",
    24: "the container's record has a code 2, unspecified, and the stream's is not well formed",
}


def refusal_text(number):
    """The refusal in words."""
    return _TEXTS.get(number, "not a refusal number")


class Refusal(Exception):
    """Why a call was refused. Plane, row, column and sample are 0 but for number 10: there they name the first sample too large, and what it is."""

    def __init__(self, packed):
        self.number, self.plane = packed & 0xFF, packed >> 8 & 0xFF
        self.row, self.column, self.sample = packed >> 16 & 0xFFFF, packed >> 32 & 0xFFFF, packed >> 48
        found = ": sample %d of plane %d, row %d, column %d" % (self.sample, self.plane, self.row, self.column) if self.number == 10 else ""
        super().__init__("refused %d: %s%s" % (self.number, refusal_text(self.number), found))
        self._packed = packed

    def __reduce__(self):
        """Copies and pickles are made from the number, as the first one was; Exception would make them from the text."""
        return type(self), (self._packed,), vars(self)


def _buffer(length):
    return (ctypes.c_uint16 * _number(length, 48))()


class Source:
    """Three planes that share a stride, to be read: array('H'), or any one-dimensional buffer of that kind. They are copied."""

    def __init__(self, planes, stride):
        views = [memoryview(plane) for plane in planes]
        if len(views) != 3 or any(view.format != "H" or view.ndim != 1 for view in views):
            raise TypeError("a picture is three planes of 16-bit numbers, as array('H')")
        self.stride = stride
        self._buffers = [(ctypes.c_uint16 * len(view)).from_buffer_copy(view.tobytes()) for view in views]


class Output:
    """Three planes that share a stride, to be written; lengths are three numbers of elements."""

    def __init__(self, lengths, stride):
        self.stride = stride
        self._buffers = [_buffer(length) for length in lengths]
        if len(self._buffers) != 3:
            raise TypeError("a picture has three planes")

    @property
    def planes(self):
        """What the planes hold now, as three new array('H')."""
        return [array("H", bytes(buffer)) for buffer in self._buffers]


def _number(value, bits):
    """The value, where it is a whole number of so many bits; ctypes alone would cut it down to them."""
    if isinstance(value, bool) or not isinstance(value, int):
        raise TypeError("%r is not a whole number" % (value,))
    if not 0 <= value < 1 << bits:
        raise ValueError("%d does not fit into %d bits" % (value, bits))
    return value


def _flag(value):
    if not isinstance(value, bool):
        raise TypeError("a range flag is True or False, and not %r" % (value,))
    return value


# PyDLL keeps the interpreter's lock, so that no other thread touches an Output while a call writes it.
_library = ctypes.PyDLL(
    os.environ.get("CORKPLOVER_LIBRARY") or os.path.join(os.path.dirname(os.path.abspath(__file__)), "libcorkplover.so")
)
_BYTE, _SAMPLE, _SIZE, _SETTING = ctypes.c_uint8, ctypes.c_uint16, ctypes.c_size_t, ctypes.c_uint64
_LEVEL, _COUNT = ctypes.POINTER(ctypes.c_float), ctypes.POINTER(ctypes.c_uint64)
_PLANES = [ctypes.c_void_p, _SIZE] * 3


def _export(name, result, parameters):
    function = getattr(_library, "corkplover_" + name)
    function.restype, function.argtypes = result, parameters
    return function


# The library's compiler knows nothing of these lines; tests/clients/run compares them with its source and calls each.
_labels = {kind: _export(kind + "_label", _BYTE, [_BYTE, _BYTE]) for kind in ("primaries", "transfer", "matrix")}
_exports = {
    name: _export(name, ctypes.c_uint64, [_SETTING] + more)
    for name, more in {
        "forward_pixel": [_SAMPLE] * 3,
        "reverse_pixel": [_SAMPLE] * 3,
        "forward_frame": [_SIZE] * 4 + _PLANES + _PLANES,
        "reverse_frame": [_SIZE] * 4 + _PLANES + _PLANES,
        "image_check": [_SIZE] * 3 + _PLANES,
        "judge_forward": [_SIZE] * 4 + _PLANES + _PLANES + [_COUNT],
        "judge_reverse": [_SIZE] * 4 + _PLANES + _PLANES + [_COUNT],
        "meter_y": [_SAMPLE, _LEVEL],
        "meter_cb": [_SAMPLE, _LEVEL],
        "meter_cr": [_SAMPLE, _LEVEL],
        "meter_pixel": [_SAMPLE] * 3 + [_LEVEL] * 3,
    }.items()
}


_BYTES = [ctypes.c_void_p, _SIZE]
_records = {
    name: _export(name, ctypes.c_uint64, parameters)
    for name, parameters in {
        "read_label": _BYTES,
        "write_label": [_BYTE] * 3 + [ctypes.c_bool] + _BYTES,
        "pick_label": _BYTES + _BYTES,
    }.items()
}


def _word(s):
    """A setting as the library takes it: a byte for each code and depth, from the lowest byte up, then a bit for each flag, and the edition in
    the highest byte."""
    codes = [_number(v, 8) for v in (s.primaries, s.transfer, s.matrix, s.rgb_depth, s.y_depth, s.c_depth)]
    flags = _flag(s.rgb_full) + 2 * _flag(s.ycc_full)
    return int.from_bytes([*codes, flags, _number(s.edition, 8)], "little")


def _accepted(packed):
    """The packed answer where it is accepted."""
    if packed & 0xFF:
        raise Refusal(packed)
    return packed


def _call(name, s, *more):
    return _accepted(_exports[name](_word(Setting(*s)), *more))


def _samples(pixel):
    first, second, third = pixel
    return [_number(v, 16) for v in (first, second, third)]


def _sizes(*numbers):
    return [_number(n, 64) for n in numbers]


def _planes(picture):
    return [word for buffer in picture._buffers for word in (ctypes.addressof(buffer), len(buffer))]


def _pixel(name, s, pixel):
    packed = _call(name, s, *_samples(pixel))
    return packed >> 16 & 0xFFFF, packed >> 32 & 0xFFFF, packed >> 48


def _frame(name, s, width, height, source, output):
    if not isinstance(source, Source) or not isinstance(output, Output):
        raise TypeError("a frame call takes a Source and an Output")
    _call(name, s, *_sizes(width, height, source.stride, output.stride), *_planes(source), *_planes(output))


def _place(packed):
    """Row and column that an accepted search for a pixel names, where it found one."""
    return (packed >> 16 & 0xFFFF, packed >> 32 & 0xFFFF) if packed >> 8 & 0xFF else None


def _judge(name, s, width, height, source, claimed):
    if not isinstance(source, Source) or not isinstance(claimed, Source):
        raise TypeError("a judgement takes two Sources, what was converted and what is claimed")
    wrong = ctypes.c_uint64()
    sizes = _sizes(width, height, source.stride, claimed.stride)
    place = _place(_call(name, s, *sizes, *_planes(source), *_planes(claimed), ctypes.byref(wrong)))
    return None if place is None else Difference(*place, wrong.value)


def _reading(name, s, v):
    level = ctypes.c_float()
    _call(name, s, _number(v, 16), ctypes.byref(level))
    return level.value


def _label(kind, edition, code):
    """A label; where the edition is none, the refusal's number comes in its place."""
    answer = _labels[kind](_number(edition, 8), _number(code, 8))
    if answer not in (ASSIGNED, UNSPECIFIED, RESERVED):
        raise Refusal(answer)
    return answer


def primaries_label(edition, code):
    return _label("primaries", edition, code)


def transfer_label(edition, code):
    return _label("transfer", edition, code)


def matrix_label(edition, code):
    return _label("matrix", edition, code)


def forward_pixel(s, rgb):
    """Y, Cb and Cr of an RGB pixel."""
    return _pixel("forward_pixel", s, rgb)


def reverse_pixel(s, ycc):
    """R, G and B of a Y, Cb, Cr pixel."""
    return _pixel("reverse_pixel", s, ycc)


def forward_frame(s, width, height, source, output):
    """Converts a frame. Nothing that the output held before is left: the picture and zeros, or where refused zeros alone."""
    _frame("forward_frame", s, width, height, source, output)


def reverse_frame(s, width, height, source, output):
    _frame("reverse_frame", s, width, height, source, output)


def image_check(s, width, height, ycc):
    """None if some RGB picture converts to this one; else row and column of the first pixel without a source."""
    if not isinstance(ycc, Source):
        raise TypeError("an image check takes a Source")
    return _place(_call("image_check", s, *_sizes(width, height, ycc.stride), *_planes(ycc)))


def judge_forward(s, width, height, source, claimed):
    """None if the claimed Y, Cb, Cr frame is what the formulas make of the R, G, B source; else where it is wrong, a Difference. A claimed
    sample above its depth is wrong, and never refused."""
    return _judge("judge_forward", s, width, height, source, claimed)


def judge_reverse(s, width, height, source, claimed):
    """The same the other way: the claim is R, G, B."""
    return _judge("judge_reverse", s, width, height, source, claimed)


def meter_y(s, y):
    return _reading("meter_y", s, y)


def meter_cb(s, cb):
    return _reading("meter_cb", s, cb)


def meter_cr(s, cr):
    return _reading("meter_cr", s, cr)


def meter_pixel(s, ycc):
    y, cb, cr = ctypes.c_float(), ctypes.c_float(), ctypes.c_float()
    _call("meter_pixel", s, *_samples(ycc), ctypes.byref(y), ctypes.byref(cb), ctypes.byref(cr))
    return Levels(y.value, cb.value, cr.value)


def _record(record):
    """The record as a buffer of our own, of which the library is given the address and the length."""
    view = memoryview(record)
    if view.format != "B" or view.ndim != 1:
        raise TypeError("a record is bytes")
    return (ctypes.c_uint8 * len(view)).from_buffer_copy(view.tobytes())


def _record_call(name, first, *buffers):
    """The numbers of a call, and after them each buffer as its address and its length."""
    lent = [word for buffer in buffers for word in (ctypes.addressof(buffer), len(buffer))]
    return _accepted(_records[name](*first, *lent))


def read_label(record):
    """The ColourLabel in a colour record: bytes, or any one-dimensional buffer of them. Refusals: 20 to 23."""
    packed = _record_call("read_label", [], _record(record))
    return ColourLabel(packed >> 16 & 0xFF, packed >> 32 & 0xFF, packed >> 48 & 0xFF, packed >> 8 & 0xFF != 0)


def write_label(label):
    """The colour record of a label, as bytes; every label has one."""
    primaries, transfer, matrix, full = label
    record = (ctypes.c_uint8 * RECORD_BYTES)()
    _record_call("write_label", [_number(primaries, 8), _number(transfer, 8), _number(matrix, 8), _flag(full)], record)
    return bytes(record)


def pick_label(container, stream):
    """The container's record or the stream's, as a Picked: the container's if it can be read and none of its codes is 2, else the stream's if
    it can be read. Where neither wins, the refusal is the container's own, or 24 where it has none."""
    buffers = _record(container), _record(stream)
    won = _record_call("pick_label", [], *buffers) >> 8 & 0xFF
    return Picked((CONTAINER, STREAM)[won], bytes(buffers[won])[-LABEL_PART_BYTES:])
