"""How far two pictures are apart, plane by plane, and a picture that shows where."""
from operator import sub

# The shade of a sample by its difference, of which a negative one counts from the end. All but that of 0 have the bit of 64, which is the shade of
# a sample that agrees in a pixel that does not: so what is wrong in one plane can be put into the others bit by bit.
_SHADES = bytes([0, 192, 224]) + bytes([255]) * (2 * 65535 - 4) + bytes([224, 192])


def largest(expected, claimed):
    """The largest difference of two planes."""
    if expected == claimed:
        return 0
    return max(map(abs, set(map(sub, expected, claimed))))


def _shades(expected, claimed):
    """A byte for each sample, as one number: then planes can be joined at once."""
    if expected == claimed:
        return 0
    return int.from_bytes(bytes(map(_SHADES.__getitem__, map(sub, expected, claimed))), "little")


def channels(expected, claimed):
    """Red, green and blue of the picture that shows where two pictures differ."""
    count = len(expected[0])
    shades = [_shades(*planes) for planes in zip(expected, claimed)]
    wrong = (shades[0] | shades[1] | shades[2]) & int.from_bytes(b"\x40" * count, "little")
    return [(shade | wrong).to_bytes(count, "little") for shade in shades]
