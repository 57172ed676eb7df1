#!/usr/bin/env python3
"""A device that answers wrongly: what a program writes to a serial line, with bytes changed in its packets.

    changed_answers.py OLD NEW PROGRAM [WORD ..]

Each packet of the program that has the bytes OLD gets NEW in their place, both in hex, in a frame of its own; all else
is passed on as it is.
"""
import os
import subprocess
import sys

sys.dont_write_bytecode = True
from support.frames import frame, read_frame


def main():
    old, new = (bytes.fromhex(word) for word in sys.argv[1:3])
    held = b""
    with subprocess.Popen(sys.argv[3:], stdout=subprocess.PIPE) as program:
        while data := os.read(program.stdout.fileno(), 4096):
            held += data
            while held:
                try:
                    packet, held = read_frame(held)
                except ValueError:
                    break  # the rest of the frame has yet to come
                os.write(1, frame(packet.replace(old, new)))


if __name__ == "__main__":
    main()
