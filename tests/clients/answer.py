"""Answers the oracle's cases by the library, through the Python binding, in the oracle's words."""
import struct
import sys
from array import array

import corkplover as cork


class Words:
    def __init__(self, line):
        self._rest = iter(line.split())

    def word(self):
        return next(self._rest)

    def number(self):
        return int(self.word())

    def setting(self):
        edition, *numbers = [self.number() for _ in range(9)]
        return cork.Setting(*numbers[:6], *map(bool, numbers[6:]), edition)

    def pixel(self):
        return self.number(), self.number(), self.number()

    def source(self, stride):
        planes = []
        for _ in range(3):
            length = self.number()
            planes.append(array("H", [self.number() for _ in range(length)]))
        return cork.Source(planes, stride)

    def record(self):
        length = self.number()
        return bytes(self.number() for _ in range(length))

    def colour_label(self):
        return cork.ColourLabel(self.number(), self.number(), self.number(), bool(self.number()))


def bits(level):
    return "%08x" % struct.unpack("<I", struct.pack("<f", level))


def refused(r):
    found = " plane %d row %d column %d sample %d" % (r.plane, r.row, r.column, r.sample) if r.number == 10 else ""
    return "refused %d%s" % (r.number, found)


def samples(call):
    return lambda w: "samples %d %d %d" % call(w.setting(), w.pixel())


def level(call):
    return lambda w: "level " + bits(call(w.setting(), w.number()))


def levels(w):
    return "levels " + " ".join(map(bits, cork.meter_pixel(w.setting(), w.pixel())))


def label(call):
    names = {cork.ASSIGNED: "assigned", cork.UNSPECIFIED: "unspecified", cork.RESERVED: "reserved"}
    return lambda w: names[call(w.number(), w.number())]


def source_check(w):
    """The library's check of a picture of one pixel stands for the oracle's check of a pixel."""
    s, pixel = w.setting(), w.pixel()
    found = cork.image_check(s, 1, 1, cork.Source([array("H", [v]) for v in pixel], 1))
    return "yes" if found is None else "none"


def image(w):
    s, width, height, stride = w.setting(), w.number(), w.number(), w.number()
    found = cork.image_check(s, width, height, w.source(stride))
    return "yes" if found is None else "none row %d column %d" % found


def frame(call):
    def run(w):
        s, width, height = w.setting(), w.number(), w.number()
        stride, output_stride = w.number(), w.number()
        source = w.source(stride)
        output = cork.Output([w.number(), w.number(), w.number()], output_stride)
        try:
            call(s, width, height, source, output)
            first = "done"
        except cork.Refusal as r:
            first = refused(r)
        return "\n".join([first] + [" ".join(map(str, plane)) for plane in output.planes])

    return run


def judgement(call):
    def run(w):
        s, width, height = w.setting(), w.number(), w.number()
        stride, claimed_stride = w.number(), w.number()
        d = call(s, width, height, w.source(stride), w.source(claimed_stride))
        return "agrees" if d is None else "differs row %d column %d wrong %d" % (d.row, d.column, d.wrong)

    return run


def read(w):
    return "label %d %d %d %d" % cork.read_label(w.record())


def spaced(word, record):
    return " ".join([word, *map(str, record)])


def pick(w):
    container, stream = w.record(), w.record()
    return spaced(*cork.pick_label(container, stream))


CALLS = {
    "p": label(cork.primaries_label),
    "t": label(cork.transfer_label),
    "x": label(cork.matrix_label),
    "f": samples(cork.forward_pixel),
    "r": samples(cork.reverse_pixel),
    "s": source_check,
    "y": level(cork.meter_y),
    "b": level(cork.meter_cb),
    "c": level(cork.meter_cr),
    "m": levels,
    "F": frame(cork.forward_frame),
    "R": frame(cork.reverse_frame),
    "I": image,
    "J": judgement(cork.judge_forward),
    "K": judgement(cork.judge_reverse),
    "N": read,
    "W": lambda w: spaced("record", cork.write_label(w.colour_label())),
    "P": pick,
}

for line in sys.stdin:
    words = Words(line)
    try:
        print(CALLS[words.word()](words))
    except cork.Refusal as r:
        print(refused(r))
