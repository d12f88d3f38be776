"""Has the Rust answer the files that the gate replays anew, and holds the answers to the ones that are kept beside them."""

import subprocess
import sys

folder, rust = sys.argv[1:]
with open(f"{folder}/stdin", "rb") as kept:
    rest = kept.read()
answers, count = b"", 0
while rest:
    n = int.from_bytes(rest[:4], "little")
    answers += subprocess.run([rust], input=rest[4 : 4 + n], stdout=subprocess.PIPE, check=True).stdout + b"--\n"
    rest = rest[4 + n :]
    count += 1
with open(f"{folder}/stdout", "rb") as kept:
    if kept.read() != answers:
        sys.exit("test: the Rust answers the kept files otherwise than crates/replay_cases/stdout has it")
print(f"test: the Rust answers the {count} kept files as crates/replay_cases/stdout has them")
