#!/usr/bin/env python3
"""Packing and unpacking of 24-bit samples from the words of document 01, and not from our definitions. It makes what the program
`pcm_figures` must print:

  pcm_model.py                   prints it
  pcm_model.py --check [FILE]    compares it with FILE (crates/pcm_figures/stdout); exit status 1 if they differ

The calls below repeat the program's; each answer is worked out here.
"""
import itertools
import pathlib
import sys

DONE, NO_ROOM, ODD_LENGTH = 0, 14, 20
BIG, LITTLE = 'big', 'little'
# what the program lends its room filled with, so that places after a result show that they kept their contents
BYTE, SAMPLE = 0xEE, 7


def packed(xs, order):
    return b''.join((x % 2 ** 24).to_bytes(3, order) for x in xs)


def unpacked(s, order):
    return [int.from_bytes(s[i:i + 3], order, signed=True) for i in range(0, len(s), 3)]


def pack(xs, order, room):
    """The number, and the whole room after the call."""
    result = packed(xs, order)
    if len(result) > len(room):
        return NO_ROOM, room
    return DONE, result + room[len(result):]


def unpack(s, order, room):
    # the order is 20, 14
    if len(s) % 3:
        return ODD_LENGTH, room
    result = unpacked(s, order)
    if len(result) > len(room):
        return NO_ROOM, room
    return DONE, result + room[len(result):]


def words(*parts):
    return ''.join(f' {part}' for part in parts)


def hexes(s):
    return words(*(f'{b:02x}' for b in s))


def pack_line(xs, order, room):
    number, after = pack(xs, order, bytes([BYTE] * room))
    return f'pack {order}-endian{words(*xs)}: {number},{hexes(after)}'


def unpack_line(s, order, room):
    number, after = unpack(s, order, [SAMPLE] * room)
    return f'unpack {order}-endian{hexes(s)}: {number},{words(*after)}'


def lines():
    # one sample there and back, with room for more than the result
    for x, order in ((1, BIG), (-8388608, BIG), (8388608, BIG), (1, LITTLE), (-1, BIG), (8388607, BIG), (-8388609, LITTLE)):
        yield pack_line([x], order, 4)
        yield unpack_line(packed([x], order), order, 2)
    # two turns of the code's eight and three more
    many = [1, -1, 0, 255, -256, 65535, -65536, 8388607, -8388608, 8388608, -8388609, 16777215, -16777216,
            2147483647, -2147483647, 1193046, -1193046, 66051, -66051]
    for order in (BIG, LITTLE):
        yield pack_line(many, order, 57)
        yield unpack_line(packed(many, order), order, 20)
    # room one short
    yield pack_line([1, 2], BIG, 5)
    yield unpack_line(bytes([0, 0, 1, 0, 0, 2]), BIG, 1)
    # an odd length, with room for the whole samples and without
    yield unpack_line(bytes([0, 0, 1, 0]), BIG, 1)
    yield unpack_line(bytes([0, 0, 1, 0]), BIG, 0)


def main(model, program, want, doc):
    """Prints the lines that are wanted, or compares them with those stored for the program."""
    if not sys.argv[1:]:
        print(*want, sep='\n')
    elif sys.argv[1] == '--check' and len(sys.argv) <= 3:
        stored = pathlib.Path(__file__).resolve().parent.parent / 'crates' / program / 'stdout'
        # as bytes, and with what follows the last line end: the gate compares these too
        got = pathlib.Path(*sys.argv[2:] or [stored]).read_bytes().decode().split('\n')
        for i, (a, b) in enumerate(itertools.zip_longest([*want, ''], got, fillvalue='(no line)')):
            if a != b:
                sys.exit(f'{model}: line {i + 1} differs\n  document 01: {a}\n  stored:      {b}')
        print(f'{model}: {len(want)} lines as stored')
    else:
        sys.exit(doc)


if __name__ == '__main__':
    main('pcm_model', 'pcm_figures', list(lines()), __doc__)
