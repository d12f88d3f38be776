"""Our program beside the Rust's on files of cases.py, each fed whole, and some byte by byte and in random pieces."""

import argparse
import collections
import itertools
import os
import random
import subprocess
import sys
import threading

from cases import HOLE, as_floats, damaged, good, has_zero_sum, read_trace


def answer(program, file):
    run = subprocess.run([program], input=file, stdout=subprocess.PIPE, stderr=subprocess.DEVNULL, timeout=60)
    return run.stdout


def in_pieces(program, pieces):
    run = subprocess.Popen([program], stdin=subprocess.PIPE, stdout=subprocess.PIPE, stderr=subprocess.DEVNULL, bufsize=0)

    def feed():
        try:
            for piece in pieces:
                run.stdin.write(piece)
        except BrokenPipeError:
            pass  # refused, and the program has ended
        finally:
            try:
                run.stdin.close()
            except BrokenPipeError:
                pass

    feeder = threading.Thread(target=feed)
    feeder.start()
    out = run.stdout.read()
    feeder.join()
    run.wait(60)
    return out


def cut(rng, file):
    at = 0
    while at < len(file):
        n = rng.choice([1, 2, 3, rng.randint(1, 100), rng.randint(1, 5000)])
        yield file[at : at + n]
        at += n


def ended(text):
    last = text.rsplit(b"\n", 2)[-2:-1]
    return last[0].decode() if last and last[0].startswith(b"refused") else "accepted"


def main():
    options = argparse.ArgumentParser()
    options.add_argument("--seed", type=int, default=1)
    options.add_argument("--files", type=int, default=2000)
    options.add_argument("--damaged", type=int, default=20000)
    options.add_argument("--pieces", type=int, default=200)
    options.add_argument("--program", required=True)
    options.add_argument("--rust", required=True)
    o = options.parse_args()
    rng = random.Random(o.seed)
    differ = 0
    two_bytes, with_holes, zero_sums = 0, 0, 0
    for name, count, maker in (("written by NumPy", o.files, None), ("damaged", o.damaged, damaged(rng))):
        ends = collections.Counter()
        for i in range(count):
            file = next(maker) if maker else good(rng)
            want, got = answer(o.rust, file), answer(o.program, file)
            ends[ended(want)] += 1
            same = want == got
            zero_sums += not maker and has_zero_sum(file)
            if not maker and (trace := read_trace(file)).dtype == "<i2":
                # The cell rule once more, apart from the Rust's program: NumPy makes the numbers.
                two_bytes += 1
                with_holes += bool((trace == HOLE).any())
                same = same and answer(o.program, as_floats(file)) == got
            if not same:
                differ += 1
                kept = os.path.join(os.path.dirname(o.rust), "differs.npy.bin")
                with open(kept, "wb") as to:
                    to.write(file)
                print(f"{name} {i}: the answers differ; the file is kept as {kept}")
        print(f"{name}: {count} files, " + ", ".join(f"{n} {end}" for end, n in sorted(ends.items())))
        if not maker:
            print(f"of these <i2: {two_bytes} files, {with_holes} with holes, each replayed as <f4 too")
            print(f"of these with a lane whose tau + dt is zero: {zero_sums} files")
    pool = damaged(rng)
    for i in range(o.pieces):
        file = good(rng) if i % 2 else next(itertools.islice(pool, rng.randrange(300), None))
        whole = answer(o.program, file)
        for how, pieces in (("byte by byte", [file[n : n + 1] for n in range(len(file))]), ("in random pieces", list(cut(rng, file)))):
            if in_pieces(o.program, pieces) != whole:
                differ += 1
                print(f"file {i} {how}: another output than whole")
    print(f"in pieces: {o.pieces} files, each whole, byte by byte and in random pieces")
    print(f"seed {o.seed}: {differ} differ")
    sys.exit(1 if differ else 0)


if __name__ == "__main__":
    main()
