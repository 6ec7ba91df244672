"""The Python binding as a caller meets it: answers become values, refusals are raised, and wrong types never reach the library."""
import copy
import pickle
import unittest
from array import array

import corkplover as cork

LOSSLESS = cork.Setting(1, 1, 8, 8, 8, 9, True, True, cork.EDITION_PUBLISHED)
NARROW = cork.Setting(1, 1, 1, 8, 8, 8, False, False, cork.EDITION_PUBLISHED)
# YCgCo-Re and YCgCo-Ro, by their published numbers
RE = LOSSLESS._replace(matrix=16, y_depth=10, c_depth=10)
RO = LOSSLESS._replace(matrix=17, y_depth=9, c_depth=9)

EDITIONS = cork.EDITION_2021, cork.EDITION_DRAFT, cork.EDITION_PUBLISHED


def planes(*three):
    return [array("H", plane) for plane in three]


# Red, green and blue, and what the box makes of them
RGB = planes([255, 0, 0, 999], [0, 255, 0, 999], [0, 0, 255, 999])
YCC = planes([63, 127, 63], [129, 511, 129], [511, 256, 1])


# The record of a picture by Rec. 2100 PQ, narrow, and that of one by sRGB, full
HDR = b"nclx\x00\x09\x00\x10\x00\x09\x00"
SRGB = b"nclx\x00\x01\x00\x0d\x00\x06\x80"


def with_byte(record, place, byte):
    return record[:place] + bytes([byte]) + record[place + 1 :]


class Refusing(unittest.TestCase):
    def refused(self, number, plane, sample, call, *words):
        with self.assertRaises(cork.Refusal) as caught:
            call(*words)
        r = caught.exception
        self.assertEqual((r.number, r.plane, r.row, r.column, r.sample), (number, plane, 0, 0, sample))


class Answers(Refusing):
    def test_pixels(self):
        self.assertEqual(cork.forward_pixel(LOSSLESS, (255, 0, 0)), (63, 129, 511))
        self.assertEqual(cork.reverse_pixel(LOSSLESS, (63, 129, 511)), (255, 0, 0))
        self.refused(2, 0, 0, cork.forward_pixel, LOSSLESS._replace(matrix=2), (0, 0, 0))
        self.refused(10, 2, 300, cork.forward_pixel, LOSSLESS, (0, 0, 300))

    def test_every_edition_has_the_codes_below_15(self):
        self.assertEqual(EDITIONS, (1, 2, 3))
        for edition in EDITIONS:
            self.assertEqual(cork.forward_pixel(LOSSLESS._replace(edition=edition), (255, 0, 0)), (63, 129, 511))
            self.assertEqual(cork.meter_y(NARROW._replace(edition=edition), 235), 1.0)

    def test_draft_and_published_numbers(self):
        """The draft has the two matrices at the number before; under another edition its numbers are refused."""
        for published, ycc, by_newer in ((RE, (63, 385, 767), 3), (RO, (63, 129, 511), 7)):
            draft = published._replace(matrix=published.matrix - 1, edition=cork.EDITION_DRAFT)
            for s in draft, published:
                self.assertEqual(cork.forward_pixel(s, (255, 0, 0)), ycc)
                self.assertEqual(cork.reverse_pixel(s, ycc), (255, 0, 0))
                self.refused(1, 0, 0, cork.forward_pixel, s._replace(edition=cork.EDITION_2021), (255, 0, 0))
            self.refused(by_newer, 0, 0, cork.forward_pixel, draft._replace(edition=cork.EDITION_PUBLISHED), (255, 0, 0))

    def test_editions_that_are_none(self):
        """With a matrix and a sample that are refused too: an edition that is none goes before them."""
        source = cork.Source(planes([300], [0], [0]), 1)
        for edition in (0, 4, 255):
            s = LOSSLESS._replace(edition=edition, matrix=2)
            self.refused(12, 0, 0, cork.forward_frame, s, 1, 1, source, cork.Output([1, 1, 1], 1))
            self.refused(12, 0, 0, cork.image_check, s, 0, 0, source)
            self.refused(12, 0, 0, cork.judge_forward, s, 0, 0, source, source)
            self.refused(12, 0, 0, cork.judge_reverse, s, 0, 0, source, source)
            for call in (cork.forward_pixel, cork.reverse_pixel, cork.meter_pixel):
                self.refused(12, 0, 0, call, s, (300, 0, 0))
            self.refused(12, 0, 0, cork.meter_cb, s, 300)
            for label in (cork.primaries_label, cork.transfer_label, cork.matrix_label):
                self.refused(12, 0, 0, label, edition, 1)
        with self.assertRaises(cork.Refusal) as caught:
            cork.matrix_label(0, 1)
        self.assertEqual(str(caught.exception), "refused 12: the edition is none of 1 (2021), 2 (draft) and 3 (published)")

    def test_refusals_are_copied_and_pickled(self):
        """Also what a caller noted on the exception goes along."""
        source = cork.Source(planes([1, 2, 3], [4, 5, 6], [7, 8, 300]), 1)
        with self.assertRaises(cork.Refusal) as caught:
            cork.forward_frame(LOSSLESS, 1, 3, source, cork.Output([3, 3, 3], 1))
        r = caught.exception
        self.assertEqual((r.number, r.plane, r.row, r.column, r.sample), (10, 2, 2, 0, 300))
        r.picture = "beach"
        pickled = [pickle.loads(pickle.dumps(r, protocol)) for protocol in range(pickle.HIGHEST_PROTOCOL + 1)]
        for again in pickled + [copy.copy(r), copy.deepcopy(r)]:
            self.assertIs(type(again), cork.Refusal)
            self.assertEqual((str(again), vars(again)), (str(r), vars(r)))

    def test_frames(self):
        output = cork.Output([4, 4, 4], 3)
        cork.forward_frame(LOSSLESS, 2, 1, cork.Source(planes([255, 0, 999], [0, 255, 999], [0, 0, 999]), 3), output)
        self.assertEqual(output.planes, planes([63, 127, 0, 0], [129, 511, 0, 0], [511, 256, 0, 0]))
        again = cork.Output([2, 3, 2], 2)
        cork.reverse_frame(LOSSLESS, 2, 1, cork.Source(output.planes, 4), again)
        self.assertEqual(again.planes, planes([255, 0], [0, 255, 0], [0, 0]))
        self.refused(9, 0, 0, cork.forward_frame, LOSSLESS, 1, 1, cork.Source(planes([], [], []), 1), output)
        self.assertEqual(output.planes, planes([0] * 4, [0] * 4, [0] * 4))

    def test_image_checks(self):
        yes = cork.Source(planes([63], [129], [511]), 1)
        self.assertIsNone(cork.image_check(LOSSLESS, 1, 1, yes))
        self.assertEqual(cork.image_check(LOSSLESS, 2, 1, cork.Source(planes([63, 0], [129, 256], [511, 511]), 2)), (0, 1))
        self.refused(11, 0, 0, cork.image_check, NARROW, 1, 1, yes)
        self.refused(8, 0, 0, cork.image_check, LOSSLESS, 2**64 - 1, 1, yes)

    def test_frames_that_agree(self):
        self.assertIsNone(cork.judge_forward(LOSSLESS, 3, 1, cork.Source(RGB, 4), cork.Source(YCC, 3)))
        self.assertIsNone(cork.judge_reverse(LOSSLESS, 3, 1, cork.Source(YCC, 3), cork.Source(RGB, 4)))
        grey = cork.Source(planes(*[[7, 9]] * 3), 1)
        self.assertIsNone(cork.judge_forward(LOSSLESS._replace(matrix=0, c_depth=8), 1, 2, grey, grey))

    def test_frames_that_differ(self):
        """A claim with green wrong in two planes, once beyond its depth, and blue in one: pixels are counted, and none is refused."""
        claimed = planes([63, 127, 62], [129, 512, 129], [511, 257, 1])
        found = cork.judge_forward(LOSSLESS, 3, 1, cork.Source(RGB, 4), cork.Source(claimed, 3))
        self.assertIs(type(found), cork.Difference)
        self.assertEqual((found.row, found.column, found.wrong), (0, 1, 2))
        found = cork.judge_forward(LOSSLESS, 1, 3, cork.Source(RGB, 1), cork.Source(claimed, 1))
        self.assertEqual(found, cork.Difference(row=1, column=0, wrong=2))
        claimed = planes([255, 0, 0], [0, 255, 0], [0, 0, 65535])
        found = cork.judge_reverse(LOSSLESS, 1, 3, cork.Source(YCC, 1), cork.Source(claimed, 1))
        self.assertEqual(found, cork.Difference(row=2, column=0, wrong=1))

    def test_refused_judgements(self):
        rgb, ycc, short = cork.Source(RGB, 4), cork.Source(YCC, 3), cork.Source(planes([63], [129], []), 1)
        self.refused(2, 0, 0, cork.judge_forward, LOSSLESS._replace(matrix=2), 3, 1, rgb, ycc)
        self.refused(8, 0, 0, cork.judge_forward, LOSSLESS, 2**64 - 1, 1, rgb, ycc)
        self.refused(8, 0, 0, cork.judge_forward, LOSSLESS, 3, 1, rgb, cork.Source(YCC, 2))
        self.refused(9, 0, 0, cork.judge_forward, LOSSLESS, 1, 1, rgb, short)
        self.refused(9, 0, 0, cork.judge_reverse, LOSSLESS, 1, 1, short, rgb)
        self.refused(10, 1, 300, cork.judge_forward, LOSSLESS, 1, 1, cork.Source(planes([0], [300], [0]), 1), ycc)

    def test_meters(self):
        self.assertEqual(cork.meter_y(NARROW, 235), 1.0)
        self.assertEqual(cork.meter_cb(NARROW, 240), 0.5)
        self.refused(10, 2, 256, cork.meter_cr, NARROW, 256)
        self.assertEqual(cork.meter_pixel(NARROW, (235, 240, 16)), (1.0, 0.5, -0.5))

    def test_labels_and_texts(self):
        for edition in EDITIONS:
            labels = cork.primaries_label(edition, 22), cork.transfer_label(edition, 2), cork.matrix_label(edition, 18)
            self.assertEqual(labels, (cork.ASSIGNED, cork.UNSPECIFIED, cork.RESERVED))
        of_matrix = {code: [cork.matrix_label(edition, code) for edition in EDITIONS] for code in (15, 16, 17)}
        self.assertEqual(of_matrix[15], [cork.RESERVED, cork.ASSIGNED, cork.ASSIGNED])
        self.assertEqual(of_matrix[16], [cork.RESERVED, cork.ASSIGNED, cork.ASSIGNED])
        self.assertEqual(of_matrix[17], [cork.RESERVED, cork.RESERVED, cork.ASSIGNED])
        self.assertEqual(cork.refusal_text(9), "a plane is too short for the picture")
        self.assertEqual(cork.refusal_text(12), "the edition is none of 1 (2021), 2 (draft) and 3 (published)")
        self.assertEqual(cork.refusal_text(13), "not a refusal number")


class ColourLabels(Refusing):
    def test_labels_and_records(self):
        for record, numbers in ((HDR, (9, 16, 9, False)), (SRGB, (1, 13, 6, True))):
            label = cork.read_label(record)
            self.assertIs(type(label), cork.ColourLabel)
            self.assertEqual((label.primaries, label.transfer, label.matrix, label.full), numbers)
            self.assertIs(type(label.full), bool)
            self.assertEqual(cork.write_label(label), record)
            self.assertEqual(cork.write_label(numbers), record)
        self.assertEqual(cork.read_label(cork.write_label((255, 2, 0, True))), (255, 2, 0, True))
        self.assertEqual((cork.RECORD_BYTES, cork.LABEL_PART_BYTES), (11, 7))

    def test_records_that_are_refused(self):
        self.refused(20, 0, 0, cork.read_label, b"")
        self.refused(20, 0, 0, cork.read_label, HDR[:-1])
        self.refused(20, 0, 0, cork.read_label, HDR + SRGB)
        self.refused(21, 0, 0, cork.read_label, with_byte(HDR, 3, ord("c")))
        self.refused(22, 0, 0, cork.read_label, with_byte(HDR, 6, 1))
        self.refused(23, 0, 0, cork.read_label, with_byte(SRGB, 10, 0x81))
        self.refused(22, 0, 0, cork.read_label, with_byte(with_byte(HDR, 4, 9), 10, 1))
        with self.assertRaises(cork.Refusal) as caught:
            cork.read_label(b"nclc" + HDR[4:])
        self.assertEqual(str(caught.exception), "refused 21: the colour record does not begin with the letters nclx")
        self.assertEqual([cork.refusal_text(number) for number in (19, 25)], ["not a refusal number"] * 2)

    def test_picks(self):
        unspecified, broken = with_byte(HDR, 7, 2), with_byte(HDR, 10, 4)
        picked = cork.pick_label(HDR, SRGB)
        self.assertIs(type(picked), cork.Picked)
        self.assertEqual((picked.winner, picked.part), (cork.CONTAINER, HDR[4:]))
        self.assertEqual(cork.pick_label(HDR, b""), (cork.CONTAINER, HDR[4:]))
        for container in unspecified, broken, b"":
            self.assertEqual(cork.pick_label(container, SRGB), (cork.STREAM, SRGB[4:]))
            self.assertEqual(cork.pick_label(container, unspecified), (cork.STREAM, unspecified[4:]))
        self.refused(20, 0, 0, cork.pick_label, b"", b"")
        self.refused(23, 0, 0, cork.pick_label, broken, b"")
        self.refused(24, 0, 0, cork.pick_label, unspecified, broken)

    def test_buffers_of_bytes(self):
        """Any of them, and a part of a larger one, is read as bytes are; what is no buffer of bytes never reaches the library."""
        for record in bytearray(HDR), memoryview(HDR), array("B", HDR), memoryview(b"\0" + HDR)[1:], memoryview(HDR[::-1])[::-1]:
            self.assertEqual(cork.read_label(record), (9, 16, 9, False))
            self.assertEqual(cork.pick_label(record, record).part, HDR[4:])
        for wrong in ("nclx", list(HDR), array("H", [1]), memoryview(bytes(12)).cast("B", [3, 4]), 11, None):
            self.assertRaises(TypeError, cork.read_label, wrong)
            self.assertRaises(TypeError, cork.pick_label, HDR, wrong)

    def test_numbers_are_not_cut_down(self):
        for wrong in (256, -1):
            for place in range(3):
                codes = [9, 16, 9]
                codes[place] = wrong
                self.assertRaises(ValueError, cork.write_label, (*codes, True))
        for wrong in (1, 0, None):
            self.assertRaises(TypeError, cork.write_label, (9, 16, 9, wrong))
        self.assertRaises(TypeError, cork.write_label, (9, True, 9, True))
        self.assertRaises(ValueError, cork.write_label, (9, 16, 9))


class Duties(unittest.TestCase):
    def test_numbers_are_not_cut_down(self):
        for wrong in (256, -1):
            self.assertRaises(ValueError, cork.forward_pixel, LOSSLESS._replace(matrix=wrong), (0, 0, 0))
        self.assertRaises(ValueError, cork.forward_pixel, LOSSLESS, (65536, 0, 0))
        self.assertRaises(ValueError, cork.image_check, LOSSLESS, 2**64, 1, cork.Source(planes([], [], []), 1))
        self.assertRaises(ValueError, cork.judge_forward, LOSSLESS, 3, 1, cork.Source(RGB, 4), cork.Source(YCC, 2**64 + 3))
        self.assertRaises(TypeError, cork.judge_reverse, LOSSLESS, 3, True, cork.Source(YCC, 3), cork.Source(RGB, 4))
        for wrong in ((cork.EDITION_PUBLISHED, 257), (257, 1)):
            self.assertRaises(ValueError, cork.matrix_label, *wrong)
        for wrong in (1.0, "1", True, None):
            self.assertRaises(TypeError, cork.forward_pixel, LOSSLESS, (wrong, 0, 0))
        for wrong in (1, 0, None):
            self.assertRaises(TypeError, cork.forward_pixel, LOSSLESS._replace(rgb_full=wrong), (0, 0, 0))

    def test_no_edition_is_guessed(self):
        self.assertRaises(TypeError, cork.Setting, *LOSSLESS[:8])
        self.assertRaises(TypeError, cork.forward_pixel, LOSSLESS[:8], (0, 0, 0))
        self.assertRaises(TypeError, cork.matrix_label, 1)
        for wrong in (256, -1):
            self.assertRaises(ValueError, cork.forward_pixel, LOSSLESS._replace(edition=wrong), (0, 0, 0))
        for wrong in (3.0, "3", True, None):
            self.assertRaises(TypeError, cork.forward_pixel, LOSSLESS._replace(edition=wrong), (0, 0, 0))
            self.assertRaises(TypeError, cork.matrix_label, wrong, 1)

    def test_planes_are_of_one_kind(self):
        for wrong in (array("B", [1]), array("L", [1]), b"ab", memoryview(bytes(8)).cast("H", [2, 2])):
            self.assertRaises(TypeError, cork.Source, [wrong] * 3, 1)
        for wrong in ([1, 2], 7):
            self.assertRaises(TypeError, cork.Source, [wrong] * 3, 1)
        self.assertRaises(TypeError, cork.Source, planes([1], [1]), 1)
        self.assertRaises(TypeError, cork.Output, [1, 1], 1)
        self.assertRaises(TypeError, cork.forward_frame, LOSSLESS, 1, 1, cork.Output([1] * 3, 1), cork.Output([1] * 3, 1))
        for wrong in (cork.Output([3] * 3, 3), YCC, None):
            self.assertRaises(TypeError, cork.judge_forward, LOSSLESS, 3, 1, cork.Source(RGB, 4), wrong)
            self.assertRaises(TypeError, cork.judge_reverse, LOSSLESS, 3, 1, wrong, cork.Source(RGB, 4))

    def test_no_plane_is_shared(self):
        """One array as all three sources, at an odd address, is read right; what a caller is given of an output is a copy."""
        odd = memoryview(bytearray(b"\0" + bytes(array("H", [7])) + b"\0"))[1:3].cast("H")
        output = cork.Output([1, 1, 1], 1)
        cork.forward_frame(LOSSLESS, 1, 1, cork.Source([odd] * 3, 1), output)
        output.planes[0][0] = 1
        self.assertEqual(output.planes, planes([7], [256], [256]))


if __name__ == "__main__":
    unittest.main()
