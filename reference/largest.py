#!/usr/bin/env python3
"""largest.py: reads the packets of the largest protected file from standard input and compares each, byte for byte, with its own.

The file is 16,777,216 bytes from seed 1 (README.md here), resource 1, type 1, update 0, protection 1, M 255, P 255, edition 2, row order: 276 tables of 255 packets.
Says how many there were, or names the first packet that differs and exits with 1. About half a minute of processor time, on as many as there are."""

import multiprocessing, sys

from cases import generated
from receiver import LIMIT, Packer, up

SETTINGS = {"resource": 1, "type": 1, "update": 0, "protection": 1, "rows": 255, "size": 255, "edition": 2, "order": 0}
LENGTH = 273
TABLES = up(LIMIT, 239 * 255)
PACKER = Packer(generated(1, LIMIT))


def packets(t):
    """The packets of table t, one row each."""
    return [PACKER.packet(SETTINGS, n, LENGTH) for n in range(t * 255, t * 255 + 255)]


def main():
    read = 0
    with multiprocessing.Pool() as pool:
        for table in pool.imap(packets, range(TABLES)):
            for packet in table:
                if packet != sys.stdin.buffer.read(LENGTH):
                    print(f"largest: packet {read} differs")
                    return 1
                read += 1
    if sys.stdin.buffer.read(1):
        print(f"largest: more than {read} packets")
        return 1
    print(f"largest: {read} packets, byte for byte those of the second program")
    return 0


if __name__ == "__main__":
    sys.exit(main())
