"""Runs a sheet printer on files whose bytes come in small pieces, as over a slow pipe, and compares with the text that
it prints for the whole file at once: pieces.py PRINTER FILE..."""

import subprocess
import sys
import time

# Bytes of a piece, seconds of rest after it. Odd sizes cut words in two.
WAYS = ((1, 0.0005), (3, 0.0), (7, 0.0005), (255, 0.001), (4097, 0.002))
# A rest after each of so many pieces, then they follow without.
RESTS = 400


def whole(printer: str, data: bytes) -> bytes:
    """The text for an input that is there at once."""
    return subprocess.run([printer], input=data, stdout=subprocess.PIPE, check=True).stdout


def in_pieces(printer: str, data: bytes, size: int, rest: float) -> bytes:
    """The text for an input that comes in pieces."""
    with subprocess.Popen([printer], stdin=subprocess.PIPE, stdout=subprocess.PIPE, bufsize=0) as process:
        for number, at in enumerate(range(0, len(data), size)):
            process.stdin.write(data[at : at + size])
            if number < RESTS:
                time.sleep(rest)
        process.stdin.close()
        text = process.stdout.read()
    if process.returncode != 0:
        sys.exit(f"{printer} ended with {process.returncode}")
    return text


def main(printer: str, files: list) -> None:
    """Compares all files in all ways."""
    for file in files:
        with open(file, "rb") as opened:
            data = opened.read()
        expected = whole(printer, data)
        for size, rest in WAYS:
            if in_pieces(printer, data, size, rest) != expected:
                sys.exit(f"{file} in pieces of {size} bytes is printed in another way")
    print(f"{len(files)} inputs in pieces of {', '.join(str(size) for size, _ in WAYS)} bytes, the same text")


if __name__ == "__main__":
    main(sys.argv[1], sys.argv[2:])
