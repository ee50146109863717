#!/usr/bin/env python3
"""A film of 63 minutes, eight channels of 24 bits at 48 kHz, of silence: 4.05 GiB that take a few KiB of disk, since the silence is a hole.

  examples/long.py FILE      FILE must not exist
"""
import struct
import sys

CHANNELS, RATE, WIDTH = 8, 48000, 3
PAYLOAD = 63 * 60 * RATE * CHANNELS * WIDTH
EDIT_COUNT = 4

header = b'caff' + struct.pack('>HH', 1, 0)
description = struct.pack('>d4sIIIII', RATE, b'lpcm', 0, CHANNELS * WIDTH, 1, CHANNELS, 8 * WIDTH)

with open(sys.argv[1], 'xb') as film:
    film.write(header + b'desc' + struct.pack('>q', len(description)) + description)
    film.write(b'data' + struct.pack('>q', PAYLOAD + EDIT_COUNT) + bytes(EDIT_COUNT))
    film.truncate(film.tell() + PAYLOAD)
