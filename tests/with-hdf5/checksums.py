"""The checksum of the paper in three ways: the store's, libhdf5's, and by the paper's sentence with exact totals."""

import ctypes
import random

import numpy

SEED = 20240305


def load(library, function):
    """A checksum function of a shared library."""
    function = getattr(ctypes.CDLL(library), function)
    function.argtypes = [ctypes.c_char_p, ctypes.c_size_t]
    function.restype = ctypes.c_uint32
    return lambda data: function(data, len(data))


def exact(data):
    """By the paper's sentence. The totals stay below 2^62 up to the paper's limit of 16,777,216 bytes."""
    words = numpy.frombuffer(data + b"\0" * (len(data) % 2), dtype=">u2").astype("u8")
    first = int(words.sum())
    # A word is in as many running totals as there are words from it on.
    second = int((words * numpy.arange(len(words), 0, -1, dtype="u8")).sum())
    return reduced(second) << 16 | reduced(first)


def reduced(total):
    return (total - 1) % 65535 + 1 if total > 0 else 0


# ---- buffers ----------------------------------------------------------------------------------------------------------


def random_buffers():
    """1,000 random buffers of many lengths, the first of them empty."""
    source = random.Random(SEED)
    lengths = [0, 1, 2, 3]
    lengths += [source.randrange(64) for _ in range(196)]
    lengths += [source.randrange(4097) for _ in range(300)]
    # libhdf5 reduces its sums after every 360 words.
    lengths += [720 * source.randrange(1, 20) + source.randrange(-3, 4) for _ in range(250)]
    lengths += [source.randrange(70_000) for _ in range(200)]
    lengths += [source.randrange(1 << 20) for _ in range(50)]
    return [source.randbytes(length) for length in lengths]


def plain_buffers():
    """Of every length up to 2,200: all zeros, all ones, and one bit alone at the start or at the end."""
    for length in range(2201):
        yield b"\0" * length
        yield b"\xff" * length
        if length > 0:
            yield b"\x01" + b"\0" * (length - 1)
            yield b"\0" * (length - 1) + b"\x01"


def zero_sum_buffers():
    """Buffers whose totals leave 0 on division by 65,535, one of the two or both, and are not 0."""
    source = random.Random(SEED + 1)
    for place in range(3000):
        length = source.randrange(4, 3000)
        words = (length + 1) // 2
        data = bytearray(source.randbytes(length))
        wanted_first = 0 if place % 3 != 0 else source.randrange(65535)
        wanted_second = 0 if place % 3 != 1 else source.randrange(65535)
        # The first two words are solved for: each is in the first total once, and they are in words and in words - 1
        # of the running totals.
        data[0:4] = bytes(4)
        padded = bytes(data) + b"\0" * (length % 2)
        rest = [int.from_bytes(padded[at : at + 2], "big") for at in range(0, len(padded), 2)]
        first = (wanted_first - sum(rest)) % 65535
        second = (wanted_second - sum((words - at) * word for at, word in enumerate(rest))) % 65535
        one = (second - (words - 1) * first) % 65535
        other = (first - one) % 65535
        data[0:2] = one.to_bytes(2, "big")
        data[2:4] = other.to_bytes(2, "big")
        yield bytes(data)


def long_buffers():
    """At the paper's limit and a byte below it."""
    source = random.Random(SEED + 2)
    for length in (16_777_216, 16_777_215):
        yield b"\xff" * length
        yield source.randbytes(length)


def differences(buffers, ours, libhdf5):
    """The buffers for which the three are not equal, as text, and how many were odd and even in length."""
    found = []
    odd = even = 0
    for data in buffers:
        odd += len(data) % 2
        even += 1 - len(data) % 2
        sums = ours(data), libhdf5(data), exact(data)
        if len(set(sums)) != 1:
            shown = data[:16].hex() + (".." if len(data) > 16 else "")
            found.append("length %d, bytes %s: store %08X, libhdf5 %08X, exact %08X" % (len(data), shown, *sums))
    return found, odd, even


# ---- the history ------------------------------------------------------------------------------------------------------


def stored_checksums(history):
    """Every checksum that a history holds, with the bytes that it covers: pairs of name and (bytes, checksum)."""

    def number(at, width):
        return int.from_bytes(history[at : at + width], "little")

    page_size = number(8, 4)
    whole_address, whole_size = number(20, 8), number(28, 8)
    yield "header", (history[0:36], number(36, 4))
    whole_end = whole_address + whole_size
    yield "whole history", (history[whole_address : whole_end - 4], number(whole_end - 4, 4))
    for revision in range(number(whole_address + 8, 8)):
        location = whole_address + 16 + 20 * revision
        yield "location", (history[location : location + 16], number(location + 16, 4))
        record, record_size = number(location, 8), number(location + 8, 8)
        record_end = record + record_size
        yield "record", (history[record : record_end - 4], number(record_end - 4, 4))
        for place in range(number(record + 56, 8)):
            entry = record + 72 + 24 * place
            physical = number(entry + 8, 8)
            yield "entry", (history[entry : entry + 16], number(entry + 20, 4))
            yield "page", (history[physical : physical + page_size], number(entry + 16, 4))
