"""Frames of the desk link from Python: three staircase LDPC codes and FT8's (174,91), decoded by a proved library.

Standard library only. It loads libdesklink.so, which one command makes, in the repository's root:

    tools/build desklink && python/build

It is looked for beside this file and in the repository's target/; DESKLINK_SO names it where it lies elsewhere. Values are read
where they lie: any C-contiguous buffer of 32-bit floats is taken without a copy, an array.array('f') or a numpy float32 array
among them. Every call computes under the default float control word and puts the caller's back.

    >>> import array, desklink
    >>> word = desklink.encode(desklink.Code.N512R12, bytes(256))
    >>> values = array.array("f", (2.0 if bit == 0 else -2.0 for bit in word))
    >>> frame, = desklink.decode_frames(desklink.Code.N512R12, [values])
    >>> frame.count, frame.bits == bytes(256)
    (0, True)
"""
import ctypes
import enum
import fractions
import os
import typing

_HERE = os.path.dirname(os.path.abspath(__file__))
_PLACES = [os.path.join(_HERE, "libdesklink.so"), os.path.join(_HERE, os.pardir, "target", "libdesklink.so")]


def _load():
    named = os.environ.get("DESKLINK_SO")
    found = named or next(filter(os.path.exists, _PLACES), None)
    if found is None:
        raise ImportError("libdesklink.so is not here: the first lines of desklink.py say how it is made")
    return ctypes.CDLL(found)


_library = _load()
_library.desklink_version.restype = ctypes.c_char_p

VERSION = _library.desklink_version().decode()
WORK = 3070
MAX_PAIRS = 24
NO_CHECK = 65535
MAX_CYCLES = 41


class Code(enum.IntEnum):
    """The codes, by the library's numbers."""

    N512R12 = 0
    N576R23 = 1
    N512R34 = 2
    FT8 = 3

    @property
    def n(self):
        """Values of a frame, which are the bits of its codeword."""
        return (512, 576, 512, 174)[self]

    @property
    def k(self):
        """Message bits of a frame."""
        return (256, 384, 384, 91)[self]


class Rule(enum.IntEnum):
    """The check-node rules. On (174,91) SUM_PRODUCT is the original's, sign fault and all: use DEFAULT there."""

    SUM_PRODUCT = 0
    MIN_SUM = 1
    SCALED_MIN_SUM = 2
    DEFAULT = 3
    UNNEGATED = 4


_REASONS = {
    1: "the code's number names none",
    2: "the rule's number is above 4",
    3: "the rule is not one of the code's",
    4: "an input is not its fixed length",
    5: "a staircase word to be counted is shorter than N",
    6: "a (174,91) message has a set bit among the low five of byte 11",
    7: "more than 24 pairs",
    8: "an output is not exactly its length",
    9: "the work area is too short",
    10: "a pair's length is not the code's N",
    11: "a pair starts below the end of the one before",
    12: "a pair ends past the values",
    13: "a program's input is malformed",
    14: "a sum of the totals would pass its limit",
    15: "a fraction is asked of no frames",
    16: "a byte of a word with erasures is above 2",
    17: "a soft byte is -128",
    18: "a value is no soft byte's",
    19: "a program is asked about a frame past the last",
    20: "a group's size is 0, or the sizes do not add up to the number of frames",
}


class Refused(ValueError):
    """A call that was turned down: nothing was written. `number` is the refusal's."""

    def __init__(self, number):
        super().__init__(f"refused {number}: {_REASONS.get(number, 'unknown')}")
        self.number = number


class Frame(typing.NamedTuple):
    """What a decode gives of one frame."""

    bits: bytes
    """The K message bits, one a byte."""
    count: int
    """How many parity checks the chosen word leaves unsatisfied; 0: it is a codeword."""
    rounds: int
    """How many rounds were run."""
    first_check: typing.Optional[int]
    """The lowest check that the chosen word leaves unsatisfied, or None where the count is 0."""
    clean: bool
    """Whether the frame can be trusted: its count is 0, none of its values is NaN and, for (174,91), its checksum is right."""


class Reason(enum.IntEnum):
    """Why a frame is open: the first of these that applies, from NAN on, or that it is clean."""

    CLEAN = 0
    NAN = 1
    CHECK = 2
    CHECKSUM = 3


class Explained(typing.NamedTuple):
    """Why a frame is open, and the word that its decode chose."""

    reason: Reason
    position: typing.Optional[int]
    """With NAN: the lowest position of a NaN, counted from 0."""
    check: typing.Optional[int]
    """With CHECK: the lowest check that the chosen word leaves unsatisfied, counted from 0."""
    checksums: typing.Optional[typing.Tuple[int, int]]
    """With CHECKSUM: the checksum that the word carries, and the one of its payload."""
    word: bytes
    """The N bits of the chosen word, one a byte; the first K of them are the message."""


# ---- buffers, read and written where they lie


class _PyBuffer(ctypes.Structure):
    _fields_ = [
        ("buf", ctypes.c_void_p),
        ("obj", ctypes.py_object),
        ("len", ctypes.c_ssize_t),
        ("itemsize", ctypes.c_ssize_t),
        ("readonly", ctypes.c_int),
        ("ndim", ctypes.c_int),
        ("format", ctypes.c_char_p),
        ("shape", ctypes.c_void_p),
        ("strides", ctypes.c_void_p),
        ("suboffsets", ctypes.c_void_p),
        ("internal", ctypes.c_void_p),
    ]


_get_buffer = ctypes.pythonapi.PyObject_GetBuffer
_get_buffer.argtypes = [ctypes.py_object, ctypes.POINTER(_PyBuffer), ctypes.c_int]
_release_buffer = ctypes.pythonapi.PyBuffer_Release
_release_buffer.argtypes = [ctypes.POINTER(_PyBuffer)]
_FORMAT_OF_CONTIGUOUS = 0x0004 | 0x0038  # PyBUF_FORMAT | PyBUF_C_CONTIGUOUS


class _Lent:
    """A buffer lent to a call, of a kind of element: its address and the number of its elements."""

    def __init__(self, owner, formats, size):
        self.view = _PyBuffer()
        _get_buffer(owner, ctypes.byref(self.view), _FORMAT_OF_CONTIGUOUS)
        found = (self.view.format or b"B").lstrip(b"@=<")
        if found not in formats or self.view.itemsize != size:
            _release_buffer(ctypes.byref(self.view))
            raise TypeError(f"a buffer of {formats[0].decode()!r} elements is wanted, and this one has {found.decode()!r}")
        # A slice of no elements still wants a pointer that is aligned and not null.
        self.pointer = ctypes.c_void_p(self.view.buf if self.view.len else size)
        self.length = ctypes.c_size_t(self.view.len // size)

    def __enter__(self):
        return self

    def __exit__(self, *_):
        _release_buffer(ctypes.byref(self.view))


def _floats(values):
    return _Lent(values, [b"f"], 4)


def _bytes(data):
    return _Lent(data, [b"B", b"b", b"c", b"?"], 1)


def _answer(number):
    if number < 0:
        raise Refused(-number)
    return number


def _slice(array):
    """Pointer and length of a ctypes array."""
    length = len(array)
    return (array if length else ctypes.c_void_p(8)), ctypes.c_size_t(length)


def _first(check):
    return None if check == NO_CHECK else check


# ---- the checksum and (174,91)


def ft8_crc14(message, num_bits):
    """The CRC-14 of the first num_bits bits."""
    with _bytes(message) as lent:
        return _answer(_library.desklink_ft8_crc14(lent.pointer, lent.length, ctypes.c_size_t(num_bits)))


def ft8_add_crc(payload):
    """10 payload bytes to a block of 12."""
    block = (ctypes.c_uint8 * 12)()
    with _bytes(payload) as lent:
        _answer(_library.desklink_ft8_add_crc(lent.pointer, lent.length, *_slice(block)))
    return bytes(block)


def ft8_extract_crc(block):
    """The checksum that a block of 12 bytes carries."""
    with _bytes(block) as lent:
        return _answer(_library.desklink_ft8_extract_crc(lent.pointer, lent.length))


def pack(bits):
    """Bits, one a byte, packed most significant first, the last byte filled with zeros."""
    with _bytes(bits) as lent:
        packed = (ctypes.c_uint8 * ((lent.length.value + 7) // 8))()
        _answer(_library.desklink_pack_bits(lent.pointer, lent.length, *_slice(packed)))
    return bytes(packed)


def unpack(data, count):
    """The first `count` bits of packed bytes, one a byte; refused by 4 where there are fewer."""
    with _bytes(data) as lent:
        if (count + 7) // 8 > lent.length.value:
            raise Refused(4)
        bits = (ctypes.c_uint8 * count)()
        _answer(_library.desklink_unpack_bits(lent.pointer, lent.length, *_slice(bits)))
    return bytes(bits)


# ---- encoding and counting


def encode(code, message):
    """The codeword of K message bits, one bit a byte, as N bytes."""
    if code == Code.FT8:
        return unpack(ldpc_encode(pack(message) if len(message) == Code.FT8.k else bytes(11)), Code.FT8.n)
    codeword = (ctypes.c_uint8 * (Code(code).n if 0 <= code <= 2 else 0))()
    with _bytes(message) as lent:
        _answer(_library.desklink_encode(ctypes.c_uint32(code), lent.pointer, lent.length, *_slice(codeword)))
    return bytes(codeword)


def ldpc_encode(message):
    """12 packed message bytes to the 22 bytes of a (174,91) codeword."""
    codeword = (ctypes.c_uint8 * 22)()
    with _bytes(message) as lent:
        _answer(_library.desklink_ldpc_encode(lent.pointer, lent.length, *_slice(codeword)))
    return bytes(codeword)


def count(code, word):
    """How many parity checks the word, one bit a byte, leaves unsatisfied, and the lowest of them or None."""
    first = ctypes.c_uint16(NO_CHECK)
    with _bytes(word) as lent:
        if code == Code.FT8:
            found = _answer(_library.desklink_ldpc_count_errors(lent.pointer, lent.length, ctypes.byref(first)))
        else:
            found = _answer(_library.desklink_syndrome_weight(ctypes.c_uint32(code), lent.pointer, lent.length, ctypes.byref(first)))
    return found, _first(first.value)


def fill_erasures(code, word):
    """The word, of bytes 0, 1 or 2 for unknown, with every bit set that the checks decide, and the positions set, in order."""
    filled = (ctypes.c_uint8 * len(word))(*word)
    places = (ctypes.c_uint16 * (Code(code).n if 0 <= code <= 3 else 0))()
    found = _answer(_library.desklink_fill_erasures(ctypes.c_uint32(code), *_slice(filled), *_slice(places)))
    return bytes(filled), list(places[:found])


def list_cycles(code):
    """The cycles of length four of code 0 to 2, each (lower column, higher column, lower row, higher row), ascending, and how many picks of the
    code's construction were relaxed."""
    places = (ctypes.c_uint16 * (4 * MAX_CYCLES))()
    relaxed = ctypes.c_uint16(0)
    found = _answer(_library.desklink_list_cycles(ctypes.c_uint32(code), *_slice(places), ctypes.byref(relaxed)))
    return [tuple(places[4 * i : 4 * i + 4]) for i in range(found)], relaxed.value


# ---- soft values in eighths


def values_of_bytes(data, positive_is_one=False):
    """Soft bytes, -127 to 127 in eighths, as values: an array.array('f')."""
    import array

    values = array.array("f", bytes(4 * len(data)))
    with _bytes(data) as lent, _floats(values) as out:
        _answer(
            _library.desklink_values_of_bytes(lent.pointer, lent.length, ctypes.c_uint32(positive_is_one), out.pointer, out.length)
        )
    return values


def bytes_of_values(values, positive_is_one=False):
    """Values that are eighths back to soft bytes: an array.array('b')."""
    import array

    with _floats(values) as lent:
        data = array.array("b", bytes(lent.length.value))
        with _bytes(data) as out:
            _answer(
                _library.desklink_bytes_of_values(lent.pointer, lent.length, ctypes.c_uint32(positive_is_one), out.pointer, out.length)
            )
    return data


# ---- decoding


def decode_batch(code, values, pairs, rule=Rule.DEFAULT, limit=20, scale=0.0, groups=(), stored=False):
    """The frames that pairs of offset and length name in `values`, at most 24 of them, as a list of Frame.

    With `groups`, a list of group sizes, a frame of a group that is not delivered has bits of None and is not called clean. `stored` reads a batch
    that was stored when rule 3 stood for rule 0.
    """
    k = Code(code).k if 0 <= code <= 3 else 0
    flat = (ctypes.c_uint32 * (2 * len(pairs)))(*(number for pair in pairs for number in pair))
    sizes = (ctypes.c_uint32 * len(groups))(*groups)
    bits = (ctypes.c_uint8 * (k * len(pairs)))()
    counts, rounds, firsts = ((ctypes.c_uint16 * len(pairs))() for _ in range(3))
    work = (ctypes.c_float * WORK)()
    head = ctypes.c_uint32(code), ctypes.c_uint32(rule), ctypes.c_uint16(limit), ctypes.c_float(scale)
    out = (*_slice(bits), *_slice(counts), *_slice(rounds), *_slice(firsts), *_slice(work))
    with _floats(values) as lent:
        named = (lent.pointer, lent.length, *_slice(flat))
        if groups:
            _answer(_library.desklink_decode_groups(*head, *named, *_slice(sizes), *out))
        elif stored:
            _answer(_library.desklink_decode_stored_batch(*head, *named, *out))
        else:
            _answer(_library.desklink_decode_batch(*head, *named, *out))
        raw = bytes(bits)
        frames = []
        for j, (offset, _) in enumerate(pairs):
            own = raw[j * k : (j + 1) * k]
            if groups and own[0] == 255:
                frames.append(Frame(None, counts[j], rounds[j], _first(firsts[j]), False))
                continue
            start = ctypes.c_void_p(lent.pointer.value + 4 * offset)
            clean = _library.desklink_frame_clean(head[0], start, ctypes.c_size_t(Code(code).n), counts[j], own, ctypes.c_size_t(k))
            frames.append(Frame(own, counts[j], rounds[j], _first(firsts[j]), _answer(clean) == 1))
    return frames


def decode_frames(code, frames, rule=Rule.DEFAULT, limit=20, scale=0.0):
    """Each of the frames, a buffer of N floats, as a Frame. Any number of them; each is read where it lies."""
    n = Code(code).n
    return [decode_batch(code, frame, [(0, n)], rule, limit, scale)[0] for frame in frames]


def frame_reason(code, values, rule=Rule.DEFAULT, limit=20, scale=0.0):
    """Why the frame of these N values is open, or that it is clean, as an Explained."""
    word = (ctypes.c_uint8 * (Code(code).n if 0 <= code <= 3 else 0))()
    part, computed = ctypes.c_uint16(), ctypes.c_uint16()
    work = (ctypes.c_float * WORK)()
    head = ctypes.c_uint32(code), ctypes.c_uint32(rule), ctypes.c_float(scale), ctypes.c_uint16(limit)
    told = ctypes.byref(part), ctypes.byref(computed)
    with _floats(values) as lent:
        reason = Reason(_answer(_library.desklink_frame_reason(*head, lent.pointer, lent.length, *_slice(word), *told, *_slice(work))))
    return Explained(
        reason,
        part.value if reason == Reason.NAN else None,
        part.value if reason == Reason.CHECK else None,
        (part.value, computed.value) if reason == Reason.CHECKSUM else None,
        bytes(word),
    )


# ---- reception figures


class _Numbers(ctypes.Structure):
    _fields_ = [("frames", ctypes.c_uint32), ("clean", ctypes.c_uint64), ("counts", ctypes.c_uint64), ("rounds", ctypes.c_uint64)]


class _Fraction(ctypes.Structure):
    _fields_ = [("over", ctypes.c_uint64), ("under", ctypes.c_uint64)]


class Totals:
    """Totals of the frames of many batches: frames, clean frames, the sum of their counts and the sum of their rounds."""

    def __init__(self, frames=0, clean=0, counts=0, rounds=0):
        for number, limit in ((frames, 2**32), (clean, 2**64), (counts, 2**64), (rounds, 2**64)):
            if not 0 <= number < limit:
                raise Refused(14)
        self._numbers = _Numbers(frames, clean, counts, rounds)

    frames = property(lambda self: self._numbers.frames, doc="How many frames.")
    clean = property(lambda self: self._numbers.clean, doc="How many of them are clean.")
    counts = property(lambda self: self._numbers.counts, doc="The sum of their counts.")
    rounds = property(lambda self: self._numbers.rounds, doc="The sum of their rounds.")

    def add(self, code, values, pairs, frames):
        """Adds the frames that decode_batch gave for these values and pairs. Refused by 14, nothing is added.

        A (174,91) frame of a group that is not delivered, whose bits are None, is counted as not clean.
        """
        k = Code(code).k if 0 <= code <= 3 else 0
        flat = (ctypes.c_uint32 * (2 * len(pairs)))(*(number for pair in pairs for number in pair))
        raw = b"".join(bytes([255]) * k if frame.bits is None else frame.bits for frame in frames)
        bits = (ctypes.c_uint8 * len(raw)).from_buffer_copy(raw)
        counts = (ctypes.c_uint16 * len(frames))(*(frame.count for frame in frames))
        rounds = (ctypes.c_uint16 * len(frames))(*(frame.rounds for frame in frames))
        results = (*_slice(flat), *_slice(bits), *_slice(counts), *_slice(rounds))
        with _floats(values) as lent:
            _answer(
                _library.desklink_totals_add(ctypes.byref(self._numbers), ctypes.c_uint32(code), lent.pointer, lent.length, *results)
            )

    def join(self, more):
        """Adds the totals of other frames. Refused by 14, these are as they were."""
        _answer(_library.desklink_totals_join(ctypes.byref(self._numbers), ctypes.byref(more._numbers)))

    def _figure(self, call):
        fraction = _Fraction()
        _answer(call(ctypes.byref(self._numbers), ctypes.byref(fraction)))
        return fractions.Fraction(fraction.over, fraction.under)

    def share(self):
        """The share of clean frames, a fractions.Fraction; refused by 15 where there are no frames."""
        return self._figure(_library.desklink_clean_share)

    def mean(self):
        """The mean count of a frame, likewise."""
        return self._figure(_library.desklink_mean_count)

    def __eq__(self, other):
        return isinstance(other, Totals) and bytes(self._numbers) == bytes(other._numbers)

    def __repr__(self):
        return f"Totals(frames={self.frames}, clean={self.clean}, counts={self.counts}, rounds={self.rounds})"
