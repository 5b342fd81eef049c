#!/usr/bin/env python3
"""Times the reading of tokens on texts of 1 MiB, each of one kind.

    bench/tokens.py PROGRAM

PROGRAM is the built simulator, crates/vhpisim/out/vhpisim after a call of
./vhpisim. No text is a design file, so each is refused once its tokens are
read. Prints for each text the seconds and the refusal, and ends with status 1
if a text takes a second or more.
"""
import os
import subprocess
import sys
import tempfile
import time

SIZE = 1 << 20


def filled(part, front=b"", back=b""):
    """front, as many parts as fit, and back."""
    room = SIZE - len(front) - len(back)
    return front + part * (room // len(part)) + back


TEXTS = {
    "one long comment": filled(b"x", b"--"),
    "one long comment over lines": filled(b"x\n", b"/*", b"*/"),
    "a comment that isn't ended": filled(b"*", b"/*"),
    "a million delimiters": filled(b";"),
    "half a million names": filled(b"a "),
    "names and apostrophes": filled(b"a'"),
    "reserved words": filled(b"with "),
    "one identifier": filled(b"a"),
    "one integer": filled(b"0"),
    "an integer that is too large": filled(b"9"),
    "one string": filled(b"a", b'"', b'"'),
    "one string of quotation marks": filled(b'""', b'"', b'"'),
    "a string that isn't ended": filled(b"a", b'"'),
    "one bit string": filled(b"F", b'X"', b'"'),
    "a million line feeds": filled(b"\n"),
    "many comments": filled(b"--\n"),
}


def main():
    if len(sys.argv) != 2:
        sys.exit(__doc__)
    program = os.path.abspath(sys.argv[1])
    slowest = 0.0
    with tempfile.TemporaryDirectory() as folder:
        path = os.path.join(folder, "text.vhd")
        for name, text in TEXTS.items():
            with open(path, "wb") as file:
                file.write(text)
            begin = time.monotonic()
            done = subprocess.run(
                [program, "run", path, "1"], capture_output=True, check=False
            )
            seconds = time.monotonic() - begin
            slowest = max(slowest, seconds)
            answer = done.stderr.decode().strip()
            print(f"{seconds:7.3f}  {name}: {answer}")
            if done.returncode != 1 or not answer.startswith("vhpisim: design: "):
                sys.exit(f"the program ended with status {done.returncode}")
    print(f"{slowest:7.3f}  the slowest")
    sys.exit(slowest >= 1)


main()
