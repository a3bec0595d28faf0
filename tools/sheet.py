#!/usr/bin/env python3
"""Joins descriptions into a sheet, one part each in the order given, with no gaps (docs/FORMATS.md):

    tools/sheet.py letters/A.txt letters/B.txt .. >letters.sheet
"""
import pathlib
import sys


def main():
    parts = [pathlib.Path(name).read_bytes() for name in sys.argv[1:]]
    start = 2 + 4 * len(parts)
    if start + sum(map(len, parts)) > 65535:
        sys.exit("a sheet has at most 65,535 bytes")
    sheet = len(parts).to_bytes(2, "big")
    for part in parts:
        sheet += start.to_bytes(2, "big") + len(part).to_bytes(2, "big")
        start += len(part)
    sys.stdout.buffer.write(sheet + b"".join(parts))


if __name__ == "__main__":
    main()
