"""Files for replays: arrays written by NumPy itself, and damaged copies of them. The same seed gives the same files."""

import io
import random

import numpy as np

# numpy.save writes version 1.0; version 2.0 is had from the function below it.
VERSIONS = ((1, 0), (2, 0))
KINDS = ("<f4", "<i2")
# Request W2: what the recorder writes in `<i2` where it had no sample. It reads as NaN.
HOLE = -32768


def written(array, version):
    to = io.BytesIO()
    if version == (1, 0):
        np.save(to, array)
    else:
        np.lib.format.write_array(to, array, version=version)
    return to.getvalue()


def odd(rng):
    return rng.choice([0.0, -0.0, 1.0, -1.0, float("nan"), float("inf"), float("-inf"), 1e-45, -1e-38, 3.4e38, 0.999999, 1.000001])


def settings(rng, lanes):
    rows = []
    for _ in range(lanes):
        row = [rng.uniform(-2, 2), rng.uniform(-2, 2), rng.uniform(-0.1, 0.1), rng.choice([0.0, rng.uniform(0, 0.1)]), rng.choice([1.0, 0.001, 0.004, rng.uniform(0.0001, 0.1)])]
        if rng.random() < 0.1:
            row[rng.randrange(5)] = odd(rng)
        rows.append(row)
    return np.array(rows, dtype="<f4")


def about_zero(dt):
    """Pairs of tau and dt about request W4's rule: tau + dt is zero, tau * 10 + dt (of the damping filter), or neither but nearly."""
    with np.errstate(all="ignore"):
        ten = np.float32(10) * dt
    zeros = [(0.0, 0.0), (-0.0, -0.0), (0.0, -0.0), (-0.0, 0.0)]
    opposite = [(-dt, dt), (dt, -dt)]
    damping = [(-dt, ten), (dt, -ten)]
    nearly = [(np.nextafter(-dt, np.float32(0)), dt), (dt, np.nextafter(-dt, np.float32("-inf"))), (1e-45, 0.0), (-0.0, 1e-45)]
    return zeros, opposite, damping, nearly


def with_zero_sums(rng, rows):
    """Settings in which about one lane in six is about the rule, mostly with a sum of zero."""
    for row in rows:
        if rng.random() < 1 / 6:
            zeros, opposite, damping, nearly = about_zero(row[4])
            row[3:] = rng.choice(rng.choice([zeros, opposite, opposite, damping, nearly]))
    return rows


def has_zero_sum(file):
    """Whether tau + dt is zero in a lane of the settings."""
    rows = np.load(io.BytesIO(file))
    with np.errstate(all="ignore"):
        return bool((rows[:, 3] + rows[:, 4] == 0).any())


def cells(rng, kind, rows, lanes):
    if kind == "<i2":
        numbers = np.array([rng.choice([rng.randint(-1500, 1500), rng.randint(-32768, 32767)]) for _ in range(rows * lanes * 3)], dtype="<i2")
    else:
        numbers = np.array([odd(rng) if rng.random() < 0.01 else rng.uniform(-1.3, 1.3) for _ in range(rows * lanes * 3)], dtype="<f4")
    return numbers.reshape(rows, lanes * 3)


def with_holes(rng, trace):
    """A trace of `<i2` in which the recorder had no sample here and there: of a cell, of a lane, of all lanes."""
    rows, columns = trace.shape
    for _ in range(rng.choice([1, 1, 2, 5])):
        row = rng.choice([0, rows - 1, rng.randrange(rows), rng.randrange(rows)])
        first = rng.randrange(columns)
        how = rng.random()
        if how < 0.7:
            trace[row, first] = HOLE
        elif how < 0.9:
            trace[row, first // 3 * 3 : first // 3 * 3 + 3] = HOLE
        else:
            trace[row] = HOLE
    # The numbers beside the hole are numbers.
    trace[rng.randrange(rows), rng.randrange(columns)] = rng.choice([HOLE + 1, 32767, 0])
    return trace


def read_trace(file):
    return np.load(io.BytesIO(file[header_ends(file)[1] :]))


def as_floats(file):
    """A file with its trace of `<i2` as `<f4`, by NumPy's own arithmetic: NaN for a hole, every other number divided by 1000."""
    trace = read_trace(file)
    numbers = trace.astype("<f4") / np.float32(1000)
    numbers[trace == HOLE] = np.nan
    return file[: header_ends(file)[1]] + written(numbers, (1, 0))


def good(rng):
    """A file that is accepted, and what it has of each."""
    lanes, kind = rng.randint(1, 8), rng.choice(KINDS)
    rows = rng.choice([0, 1, 2, rng.randint(3, 40), rng.randint(40, 400)])
    first, second = rng.choice(VERSIONS), rng.choice(VERSIONS)
    trace = cells(rng, kind, rows, lanes)
    if kind == "<i2" and 0 < rows and rng.random() < 0.9:
        trace = with_holes(rng, trace)
    return written(with_zero_sums(rng, settings(rng, lanes)), first) + written(trace, second)


def header_ends(file):
    """Where the first array's data begin, where the second array begins, and where its data begin."""
    def head(at):
        width = 2 if file[at + 6] == 1 else 4
        return at + 8 + width + int.from_bytes(file[at + 8 : at + 8 + width], "little")

    first = head(0)
    text = file[:first].decode("latin-1")
    lanes = int(text[text.index("(") + 1 : text.index(",", text.index("("))])
    second = first + 20 * lanes
    return first, second, head(second)


def small(rng):
    """A file of few bytes, for damage at each of its places."""
    lanes, kind = rng.randint(1, 2), rng.choice(KINDS)
    first, second = rng.choice(VERSIONS), rng.choice(VERSIONS)
    trace = cells(rng, kind, rng.randint(1, 3), lanes)
    if kind == "<i2" and rng.random() < 0.5:
        trace = with_holes(rng, trace)
    return written(with_zero_sums(rng, settings(rng, lanes)), first) + written(trace, second)


def lies(rng, file):
    """A number in one of the two shapes changed."""
    first, second, data = header_ends(file)
    at, end = rng.choice([(0, first), (second, data)])
    head = bytearray(file[at:end])
    open_, close = head.index(b"("), head.index(b")")
    told = head[open_ + 1 : close].decode().split(", ")
    told[rng.randrange(2)] = rng.choice(["0", "1", "5", "3", "6", "9", "999999999", "1000000000", "00", "07", str(rng.randint(0, 30))])
    new = head[: open_ + 1] + ", ".join(told).encode() + head[close:]
    # The text keeps its length: spaces go or come before the line feed.
    spaces = len(head) - len(new)
    body = new[:-1]
    body = body + b" " * spaces if 0 <= spaces else body[:spaces]
    return file[:at] + bytes(body) + b"\n" + file[end:]


def descr(rng, file):
    """Another element kind, in either array."""
    first, second, data = header_ends(file)
    at, end = rng.choice([(0, first), (second, data)])
    name = rng.choice(["<f8", ">f4", "<i4", "|u1", "<f4", "<i2", "f4", "<U12345678901234", "<U123456789012345"])
    head = bytes(file[at:end])
    new = head.replace(b"<f4", name.encode()).replace(b"<i2", name.encode())
    extra = len(new) - len(head)
    new = new[: -1 - extra] + b"\n" if 0 < extra else new[:-1] + b" " * -extra + b"\n"
    return file[:at] + new + file[end:]


def damaged(rng):
    """Damaged copies without end: of each file every cut, a changed byte at every place of its headers, and more of every sort."""
    while True:
        file = small(rng)
        first, second, data = header_ends(file)
        for n in range(len(file)):
            yield file[:n]
        for at in list(range(first)) + list(range(second, data)):
            changed = bytearray(file)
            changed[at] = rng.choice([(changed[at] + rng.randint(1, 255)) % 256, changed[at] ^ (1 << rng.randrange(8)), 0x20, 0x0A, 0x30, 0x00])
            yield bytes(changed)
        for _ in range(40):
            yield file + bytes(rng.randrange(256) for _ in range(rng.choice([1, 1, 2, 20, 200])))
            yield lies(rng, file)
            yield descr(rng, file)
            at = rng.randrange(len(file))
            yield file[:at] + bytes(rng.randrange(256) for _ in range(rng.randint(1, 3))) + file[at:]
            n = rng.choice([0, 1, 999, 1000, 1001, 65535, rng.randrange(65536)])
            yield file[:8] + n.to_bytes(2, "little") + file[10:]
            yield file[second:] + file[:second]
