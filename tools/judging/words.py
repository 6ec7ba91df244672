"""The words that tools/judge is asked by: the way, the setting, the two pictures and the options. They are the counter's where it has them."""
import re
from collections import namedtuple

USAGE = """\
judge: is a converter's picture the one that the box's formulas give?

  tools/judge forward [EDITION] SETTING SOURCE CLAIMED [OPTION..]    SOURCE is R, G, B and CLAIMED Y, Cb, Cr
  tools/judge reverse [EDITION] SETTING SOURCE CLAIMED [OPTION..]    SOURCE is Y, Cb, Cr and CLAIMED R, G, B
  tools/judge help                                                   these lines, as without any word

EDITION is the text of H.273 that the label was written by: 2021, draft or published.
Where none is given, published is meant. Matrix codes differ in them from 15 on.

SETTING is eight words: primaries, transfer and matrix codes (0 to 255), RGB depth,
Y depth and C depth in bits, then full or narrow for RGB and for YCbCr.

SOURCE and CLAIMED are files. A file is read by how it begins:

  P6         PPM. Its three channels are R, G, B or Y, Cb, Cr.
  P7         PAM of DEPTH 3, the same; or of DEPTH 4, of which the last channel is not looked at.
  YUV4MPEG2  Y4M of one frame, C444 or C444p9 to C444p16. It holds Y, Cb, Cr and is never R, G, B.
  else       raw: three planes one after the other, without a gap. A sample has one byte where no depth of that
             side is above 8, else two, the low byte first. Its size is the other picture's, or that of --size.

The MAXVAL of a PPM or PAM, and the bits of a Y4M, have to be those of the deepest plane of that side. A header that
says otherwise is a fault: either it or the setting is wrong, and which of them is not guessed.

OPTION is
  --size WIDTHxHEIGHT   the size of both pictures, for raw files
  --picture FILE        writes a PPM of where they differ. A pixel is black where it agrees. Elsewhere its red, green
                        and blue are for planes 0, 1 and 2 (R, G, B or Y, Cb, Cr): 64 where that plane agrees,
                        192 where it is 1 off, 224 where it is 2 off, 255 where it is more.

For example:

  tools/judge forward 1 1 1 8 8 8 full narrow beach.ppm beach.y4m
  tools/judge reverse 1 1 9 10 10 10 full narrow beach.yuv beach.ppm --picture wrong.ppm

Status: 0 where the pictures agree and after help, 1 for a refusal, 2 for words that were not understood, 3 where a file
or the library could not be had, 4 where the pictures differ. What 0 to 3 mean is the same for ./cork.
"""

HELP = "help", "--help", "-h"
WAYS = "forward", "reverse"
EDITIONS = "2021", "draft", "published"

# The codes and depths of a setting, in the order of the words.
_NUMBERS = (
    "the colour primaries",
    "the transfer characteristics",
    "the matrix coefficients",
    "the RGB depth in bits",
    "the Y depth in bits",
    "the C depth in bits",
)
_RANGES = "narrow", "full"

# `setting` has the nine values of a setting for programs, in their order; `size` is None, or a width and a height.
Request = namedtuple("Request", "way setting source claimed size picture")


class Fault(Exception):
    """Which word was not understood, and what was expected of it."""


def _number(word):
    """A code or a depth. So long a word as the counter reads is read here too, with zeros in front."""
    return int(word) if re.fullmatch("[0-9]{1,64}", word) and int(word) < 256 else None


def _range(word):
    return word == "full" if word in _RANGES else None


def _file(word):
    """A name, unless it looks like an option that stands where a file was forgotten."""
    return word if word and not word.startswith("--") else None


def _size(word):
    found = re.fullmatch("([0-9]{1,5})x([0-9]{1,5})", word)
    return (int(found[1]), int(found[2])) if found else None


def _one_of(words):
    return lambda word: word if word in words else None


_OPTIONS = {
    "--size": ("the size of both pictures as WIDTHxHEIGHT", _size),
    "--picture": ("the file to write the picture of differences to", _file),
}


class _Words:
    """The words in their order, each read once."""

    def __init__(self, words):
        self._words, self._at = words, 0

    def left(self):
        return len(self._words) - self._at

    def read(self, expected, reader):
        """What the reader makes of the next word; it makes None of a word that does not belong there."""
        value = reader(self._words[self._at]) if self.left() else None
        if value is None:
            raise Fault("word %d%s; expected: %s" % (self._at + 1, self._found(), expected))
        self._at += 1
        return value

    def _found(self):
        return ", '%s', is not what belongs there" % self._words[self._at] if self.left() else " is missing"

    def edition(self):
        """Its number, and what is said of it where the word after it is at fault."""
        if self.left() and self._words[self._at] in EDITIONS:
            return EDITIONS.index(self.read("", _one_of(EDITIONS))) + 1, ""
        return EDITIONS.index("published") + 1, "2021, draft or published, or "


def _setting(words):
    edition, before = words.edition()
    numbers = []
    for name in _NUMBERS:
        numbers.append(words.read("%s%s, a number from 0 to 255" % (before, name), _number))
        before = ""
    ranges = [words.read("full or narrow, for the %s side" % side, _range) for side in ("RGB", "YCbCr")]
    return (*numbers, *ranges, edition)


def _options(words):
    """Each of them once at the most."""
    given = {}
    while words.left():
        open_ones = [name for name in _OPTIONS if name not in given]
        name = words.read(" or ".join(open_ones + ["no more words"]), _one_of(open_ones))
        given[name] = words.read(*_OPTIONS[name])
    return given


def read(words):
    """The request that words make."""
    words = _Words(words)
    way = words.read("forward or reverse", _one_of(WAYS))
    setting = _setting(words)
    source = words.read("the source picture, a file", _file)
    claimed = words.read("the claimed picture, a file", _file)
    options = _options(words)
    return Request(way, setting, source, claimed, options.get("--size"), options.get("--picture"))
