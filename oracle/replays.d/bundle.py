"""The files that the gate replays: document 01's example and both sides of each edge. Each comes after its length, and the Rust answers each."""

import random
import subprocess
import sys

import numpy as np

from cases import HOLE, KINDS, VERSIONS, about_zero, cells, header_ends, settings, written


def text_as(file, at, old, new):
    """The header at a place with other text, its length kept by the spaces before the line feed."""
    first, second, data = header_ends(file)
    end = first if at == 0 else data
    head = file[at:end].replace(old, new, 1)
    extra = len(head) - (end - at)
    head = head[:-1].rstrip(b" ") + b" " * (len(head) - 1 - len(head[:-1].rstrip(b" ")) - extra) + b"\n"
    return file[:at] + head + file[end:]


def files():
    one = written(np.array([[1, 1, 0, 0, 1]], dtype="<f4"), (1, 0))
    three = np.array([[0.5, 0.25, 0.75], [0.5, 0.25, 1.25], [1, 0.25, 5]], dtype="<f4")
    example = one + written(three, (1, 0))
    assert len(example) == 312
    yield example
    yield b""
    yield one + written(three[:0], (1, 0))
    for kind in KINDS:
        for first in VERSIONS:
            for second in VERSIONS:
                for lanes in (1, 2, 3, 8):
                    # Each file has its own numbers, so that one more kind or version leaves the others as they are.
                    rng = random.Random(f"{kind} {first} {second} {lanes}")
                    yield written(settings(rng, lanes), first) + written(cells(rng, kind, rng.randint(0, 30), lanes), second)
    # Refusals 11 to 16, on either array.
    rng = random.Random("both")
    both = written(settings(rng, 2), (1, 0)) + written(cells(rng, "<i2", 3, 2), (2, 0))
    first, second, data = header_ends(both)
    for at in (0, second):
        for place in range(8):
            yield both[: at + place]  # under 8 bytes
            yield both[: at + place] + bytes([both[at + place] ^ 1]) + both[at + place + 1 :]  # magic and version
        yield both[: at + 9]  # the length is cut off
        yield both[: at + 60]  # and the text
        for n in (0, 1, 1000, 1001, 65535):
            yield both[: at + 8] + n.to_bytes(2, "little") + both[at + 10 :]
        for old, new in ((b", 'fortran", b",'fortran"), (b"False", b"True"), (b"'descr'", b'"descr"'), (b", }", b",}"), (b"(", b"(0"), (b", }", b", } ."), (b")", b",)")):
            yield text_as(both, at, old, new)
        for name in (b"<f8", b">f4", b"<i4", b"<f4", b"<i2", b"<U1234567890123", b"<U12345678901234", b"<U123456789012345", b""):
            yield text_as(both, at, b"<f4" if at == 0 else b"<i2", name)
        for shape in (b"(0, 5)", b"(9, 5)", b"(2, 4)", b"(2, 6)", b"(3, 6)", b"(4, 6)", b"(999999999, 6)", b"(1000000000, 6)", b"(1, 5)", b"(3, 3)"):
            yield text_as(both, at, b"(2, 5)" if at == 0 else b"(3, 6)", shape)
    for n in (first, first + 1, second - 1, data, data + 1, data + 11, data + 12, data + 13, len(both) - 1):
        yield both[:n]  # data cut off
    for extra in (1, 12, 128):
        yield both + bytes(extra)
    # Each cell of two bytes on its edges.
    yield one + written(np.array([[-32768, 32767, 0], [-1, 1, -32767], [1000, -1000, 999]], dtype="<i2"), (1, 0))
    # The recorder's hole, one in a file: in each of the three columns, in the first, a middle and the last lane, in the first and the last row.
    five = written(np.array([[0.5, 2, 0.01 * lane, 0.005, 0.01] for lane in range(5)], dtype="<f4"), (1, 0))
    for column in range(3):
        for lane in (0, 2, 4):
            for row in (0, 5):
                rng = random.Random(f"hole {column} {lane} {row}")
                trace = np.array([[rng.randint(-900, 900) for _ in range(15)] for _ in range(6)], dtype="<i2")
                trace[row, 3 * lane + column] = HOLE
                yield five + written(trace, (1, 0))
    # A hole in the prediction while the integral stands still; holes only; the numbers beside a hole; and the same bytes in `<f4`, where they
    # are numbers as any others.
    yield one + written(np.array([[1500, 0, HOLE], [500, 0, 0], [500, 0, 0]], dtype="<i2"), (1, 0))
    yield one + written(np.full((2, 3), HOLE, dtype="<i2"), (1, 0))
    yield one + written(np.array([[0, 0, -32767], [-32767, 0, 0], [0, -32767, 0], [32767, 1, 0]], dtype="<i2"), (1, 0))
    yield one + written(np.array([[0x8000, 0, 0], [0x80008000, 0x80000000, 0], [0x80000000, 0, 0x8000]], dtype="<u4").view("<f4"), (1, 0))
    # NaN of many patterns, infinities, the smallest and the largest.
    odd = np.array([0x7FC00000, 0xFFC00001, 0x7F800001, 0x7F800000, 0xFF800000, 1, 0x80000001, 0x7F7FFFFF, 0x80000000], dtype="<u4").view("<f4")
    yield one + written(odd.reshape(3, 3), (1, 0))
    # Request W4: lanes about its rule, with an ordinary one beside them, first, between or last; one lane alone; and eight.
    zeros, opposite, damping, nearly = about_zero(np.float32(0.5))
    ordinary = [(0.005, 0.01)]
    for kind in KINDS:
        for times in (ordinary + zeros, opposite[:1] + ordinary + opposite[1:], damping + nearly + ordinary, opposite[:1], opposite + damping + ordinary + zeros[:3]):
            rng = random.Random(f"sum of zero {kind} {len(times)}")
            trace = np.array([[rng.randint(-900, 900) for _ in range(3 * len(times))] for _ in range(12)], dtype="<i2")
            gains = [[rng.uniform(0.2, 2), rng.uniform(0.2, 2), rng.uniform(0.01, 0.1)] for _ in times]
            lanes = np.array([three + list(pair) for three, pair in zip(gains, times)], dtype="<f4")
            yield written(lanes, (1, 0)) + written(trace if kind == "<i2" else (trace / 1000).astype("<f4"), (1, 0))


def main():
    folder, rust = sys.argv[1:]
    with open(f"{folder}/stdin", "wb") as to, open(f"{folder}/stdout", "wb") as want:
        for file in files():
            to.write(len(file).to_bytes(4, "little") + file)
            want.write(subprocess.run([rust], input=file, stdout=subprocess.PIPE, check=True).stdout + b"--\n")


if __name__ == "__main__":
    main()
