"""Tests of desklink.py, which need no other package; numpy's arrays are tried where numpy is there."""
import array
import ctypes
import fractions
import random
import unittest

import desklink
from desklink import Code, Reason, Refused, Rule

CODES = list(Code)


def word_and_message(code, seed):
    source = random.Random(seed)
    message = bytes(source.randrange(2) for _ in range(code.k))
    return desklink.encode(code, message), message


def values_of(word, size=4.0):
    return array.array("f", (size if bit == 0 else -size for bit in word))


class Decoding(unittest.TestCase):
    def test_a_sign_turned_is_turned_back(self):
        for code in CODES:
            word, message = word_and_message(code, 1)
            for at in range(0, code.n, 29):
                values = values_of(word)
                values[at] = -values[at]
                (frame,) = desklink.decode_frames(code, [values])
                self.assertEqual((frame.bits, frame.count, frame.first_check), (message, 0, None))
                self.assertEqual(frame.clean, code != Code.FT8)  # these (174,91) messages carry no checksum
                self.assertGreater(frame.rounds, 0)

    def test_batch_with_gaps(self):
        for code in CODES:
            words = [word_and_message(code, seed) for seed in range(3)]
            values = array.array("f")
            pairs = []
            for word, _ in words:
                values.extend([9.0] * 5)
                pairs.append((len(values), code.n))
                values.extend(values_of(word))
            frames = desklink.decode_batch(code, values, pairs, Rule.DEFAULT, 20)
            self.assertEqual([frame.bits for frame in frames], [message for _, message in words])

    def test_groups(self):
        word, message = word_and_message(Code.N512R12, 4)
        good = values_of(word)
        dead = array.array("f", [float("nan")] * 512)
        pairs = [(512 * j, 512) for j in range(4)]
        frames = desklink.decode_batch(Code.N512R12, good + good + good + dead, pairs, groups=[2, 2])
        self.assertEqual([frame.bits for frame in frames], [message, message, None, None])
        self.assertEqual([frame.count for frame in frames], [0, 0, 0, 0])

    def test_refusals(self):
        values = array.array("f", [1.0] * 174)
        for number, call in [
            (1, lambda: desklink.decode_batch(4, values, [])),
            (2, lambda: desklink.decode_batch(0, values, [], rule=5)),
            (3, lambda: desklink.decode_batch(3, values, [], rule=1)),
            (7, lambda: desklink.decode_batch(3, values, [(0, 174)] * 25)),
            (10, lambda: desklink.decode_batch(3, values, [(0, 173)])),
            (11, lambda: desklink.decode_batch(3, values * 2, [(0, 174), (173, 174)])),
            (12, lambda: desklink.decode_batch(3, values, [(1, 174)])),
            (20, lambda: desklink.decode_batch(3, values, [(0, 174)], groups=[2])),
            (1, lambda: desklink.frame_reason(4, values)),
            (2, lambda: desklink.frame_reason(3, values, rule=5)),
            (3, lambda: desklink.frame_reason(3, values, rule=1)),
            (4, lambda: desklink.frame_reason(0, values)),
            (4, lambda: desklink.encode(0, bytes(255))),
            (5, lambda: desklink.count(1, bytes(575))),
            (1, lambda: desklink.list_cycles(3)),
            (16, lambda: desklink.fill_erasures(3, bytes([3]) + bytes(173))),
            (17, lambda: desklink.values_of_bytes(array.array("b", [-128]))),
            (18, lambda: desklink.bytes_of_values(array.array("f", [0.1]))),
        ]:
            with self.assertRaises(Refused) as caught:
                call()
            self.assertEqual(caught.exception.number, number)


    def test_clean(self):
        block = desklink.ft8_add_crc(bytes(range(10)))
        word = desklink.unpack(desklink.ldpc_encode(block), 174)
        good, dead = values_of(word), array.array("f", [float("nan")] * 174)
        frames = desklink.decode_frames(Code.FT8, [good, dead])
        self.assertEqual([(frame.count, frame.clean) for frame in frames], [(0, True), (0, False)])


    def test_reasons(self):
        for code in CODES:
            word, _ = word_and_message(code, 5)
            values = values_of(word)
            values[code.n - 1] = -values[code.n - 1]
            told = desklink.frame_reason(code, values, limit=0)
            spoilt = word[:-1] + bytes([1 - word[-1]])
            self.assertEqual((told.reason, told.check, told.word), (Reason.CHECK, desklink.count(code, spoilt)[1], spoilt))
            values[7] = values[9] = float("nan")
            told = desklink.frame_reason(code, values)
            self.assertEqual((told.reason, told.position, told.check), (Reason.NAN, 7, None))
        block = desklink.ft8_add_crc(bytes(range(10)))
        good = desklink.unpack(desklink.ldpc_encode(block), 174)
        self.assertEqual(desklink.frame_reason(Code.FT8, values_of(good))[:4], (Reason.CLEAN, None, None, None))
        carried = desklink.ft8_extract_crc(block)
        wrong = desklink.unpack(desklink.ldpc_encode(block[:11] + bytes([block[11] ^ 0x20])), 174)
        told = desklink.frame_reason(Code.FT8, values_of(wrong))
        self.assertEqual((told.reason, told.checksums, told.word), (Reason.CHECKSUM, (carried ^ 1, carried), wrong))
        word, _ = word_and_message(Code.N512R34, 6)
        self.assertEqual(desklink.frame_reason(Code.N512R34, values_of(word)).reason, Reason.CLEAN)


class Buffers(unittest.TestCase):
    def test_values_are_not_copied(self):
        word, message = word_and_message(Code.FT8, 2)
        values = values_of(word)
        read_only = memoryview(values).toreadonly()
        self.assertEqual(desklink.decode_frames(Code.FT8, [read_only])[0].bits, message)
        lent = desklink._floats(values)
        self.assertEqual(lent.pointer.value, values.buffer_info()[0])
        lent.__exit__()

    def test_other_elements_are_turned_away(self):
        with self.assertRaises(TypeError):
            desklink.decode_frames(Code.FT8, [array.array("d", [1.0] * 174)])
        with self.assertRaises(BufferError):
            desklink.decode_frames(Code.FT8, [memoryview(array.array("f", [1.0] * 348))[::2]])

    def test_numpy(self):
        try:
            import numpy
        except ImportError:
            self.skipTest("no numpy here")
        frames = numpy.ones((3, 174), dtype=numpy.float32)
        self.assertEqual([frame.count for frame in desklink.decode_frames(Code.FT8, frames)], [0, 0, 0])


class Others(unittest.TestCase):
    def test_checksum(self):
        self.assertEqual(desklink.ft8_crc14(b"\x80", 1), 0x2757)
        block = desklink.ft8_add_crc(bytes(range(10)))
        self.assertEqual(desklink.ft8_extract_crc(block), desklink.ft8_crc14(block[:9] + bytes([block[9] & 0xF8, 0]), 82))

    def test_counts(self):
        for code in CODES:
            word, _ = word_and_message(code, 3)
            self.assertEqual(desklink.count(code, word), (0, None))
            turned = bytearray(word)
            turned[-1] ^= 1
            found, first = desklink.count(code, turned)
            self.assertEqual(found, 3 if code == Code.FT8 else 1)
            self.assertIsNotNone(first)

    def test_erasures(self):
        for code in CODES:
            word, _ = word_and_message(code, 5)
            holes = bytearray(word)
            for at in (0, code.k, code.n - 1):
                holes[at] = 2
            self.assertEqual(desklink.fill_erasures(code, holes)[0], word)

    def test_cycles(self):
        for code, expected in ((Code.N512R12, 21), (Code.N576R23, 36), (Code.N512R34, 41)):
            cycles, relaxed = desklink.list_cycles(code)
            self.assertEqual((len(cycles), relaxed, cycles), (expected, 0, sorted(set(cycles))))
            for lower, higher, low, high in cycles:
                # the words of either bit alone leave both rows unsatisfied, and the word of both bits leaves neither
                alone = [desklink.count(code, bytes(p == column for p in range(code.n)))[0] for column in (lower, higher)]
                both = desklink.count(code, bytes(p in (lower, higher) for p in range(code.n)))[0]
                self.assertEqual((both, low < high), (sum(alone) - 4, True))

    def test_soft_bytes(self):
        data = array.array("b", range(-127, 128))
        for positive_is_one in (False, True):
            values = desklink.values_of_bytes(data, positive_is_one)
            self.assertEqual(desklink.bytes_of_values(values, positive_is_one), data)

    def test_pack(self):
        bits = bytes([1, 0, 1, 1, 0, 0, 0, 1, 1])
        self.assertEqual(desklink.pack(bits), bytes([0xB1, 0x80]))
        self.assertEqual(desklink.unpack(desklink.pack(bits), 9), bits)
        self.assertEqual((desklink.pack(b""), desklink.unpack(b"", 0)), (b"", b""))
        with self.assertRaises(desklink.Refused) as refused:
            desklink.unpack(bytes(2), 17)
        self.assertEqual(refused.exception.number, 4)


class Figures(unittest.TestCase):
    def batch(self, code, seed, frames):
        source = random.Random(seed)
        word, _ = word_and_message(code, seed)
        values = array.array("f")
        for j in range(frames):
            values.extend(source.gauss(1.0 - 2 * bit, 0.4 * j) for bit in word)
        if frames > 1:
            values[code.n] = float("nan")
        pairs = [(code.n * j, code.n) for j in range(frames)]
        return values, pairs, desklink.decode_batch(code, values, pairs)

    def test_totals_are_those_of_the_frames(self):
        day, account = desklink.Totals(), [0, 0, 0, 0]
        for code in CODES:
            for frames in (0, 1, 5, 24):
                values, pairs, given = self.batch(code, 7 + frames, frames)
                day.add(code, values, pairs, given)
                for frame in given:
                    account = [a + b for a, b in zip(account, (1, frame.clean, frame.count, frame.rounds))]
                self.assertEqual([day.frames, day.clean, day.counts, day.rounds], account)
        self.assertEqual(day.share(), fractions.Fraction(account[1], account[0]))
        self.assertEqual(day.mean(), fractions.Fraction(account[2], account[0]))
        self.assertGreater(day.clean, 0)
        self.assertGreater(day.frames, day.clean)

    def test_join(self):
        a, b = desklink.Totals(3, 2, 2**63, 9), desklink.Totals(5, 2**64 - 3, 2**63 - 1, 1)
        one, other = desklink.Totals(3, 2, 2**63, 9), desklink.Totals(5, 2**64 - 3, 2**63 - 1, 1)
        one.join(b)
        other.join(a)
        self.assertEqual((one, other), (desklink.Totals(8, 2**64 - 1, 2**64 - 1, 10),) * 2)
        for more in (desklink.Totals(2**32 - 8), desklink.Totals(clean=1), desklink.Totals(counts=1), desklink.Totals(rounds=2**64 - 10)):
            with self.assertRaises(Refused) as caught:
                one.join(more)
            self.assertEqual((caught.exception.number, one), (14, other))

    def test_refusals(self):
        values, pairs, given = self.batch(Code.FT8, 3, 2)
        totals = desklink.Totals(2**32 - 2, 1, 2, 3)
        for number, call in [
            (1, lambda: totals.add(4, values, pairs, given)),
            (7, lambda: totals.add(3, values, pairs * 13, given * 13)),
            (8, lambda: totals.add(3, values, pairs, given[:1])),
            (10, lambda: totals.add(3, values, [(0, 173), (174, 174)], given)),
            (11, lambda: totals.add(3, values, [(0, 174), (0, 174)], given)),
            (12, lambda: totals.add(3, values, [(0, 174), (175, 174)], given)),
            (14, lambda: totals.add(3, values, pairs, given)),
            (15, lambda: desklink.Totals().share()),
            (15, lambda: desklink.Totals(clean=4).mean()),
            (14, lambda: desklink.Totals(2**32)),
        ]:
            with self.assertRaises(Refused) as caught:
                call()
            self.assertEqual((caught.exception.number, totals), (number, desklink.Totals(2**32 - 2, 1, 2, 3)))
        self.assertEqual(str(desklink.Totals(4, 3).share()), "3/4")
        self.assertEqual(desklink.Totals(4).mean(), 0)


class ControlWord(unittest.TestCase):
    """Tiny values decode alike where the host has set flush-to-zero and denormals-are-zero: the library's calls set their own."""

    def test_subnormals(self):
        libm = ctypes.CDLL("libm.so.6")
        # fenv_t of glibc on x86-64: 28 bytes of the x87 unit, then MXCSR
        held, flushed = (ctypes.c_uint8 * 32)(), (ctypes.c_uint8 * 32)()
        source = random.Random(6)
        values = array.array("f", (source.uniform(-1, 3) * 1e-40 for _ in range(512)))
        expected = desklink.decode_frames(Code.N512R12, [values], Rule.SUM_PRODUCT)
        libm.fegetenv(held)
        ctypes.memmove(flushed, held, 32)
        flushed[28] |= 0x40
        flushed[29] |= 0x80
        libm.fesetenv(flushed)
        given = desklink.decode_frames(Code.N512R12, [values], Rule.SUM_PRODUCT)
        libm.fesetenv(held)
        self.assertEqual(given, expected)


if __name__ == "__main__":
    unittest.main()
