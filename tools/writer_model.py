#!/usr/bin/env python3
"""The file being made, from the words of document 01 and not from our definitions. It makes what the program `writer_example` must print:

  writer_model.py                   prints it
  writer_model.py --check [FILE]    compares it with FILE (crates/writer_example/stdout); exit status 1 if they differ

The calls below repeat the program's; each answer is worked out here. Only the rows of the table are taken from elsewhere: from
crates/layout_rows/stdout, which tools/layout_rows.py makes from the Rust's text. The tag that labels get is looked up here.
"""
import math
import pathlib
import struct

import pcm_model as pcm

DONE, BAD_RATE, FINISHED, NO_HEADER, HEADER_ALREADY, NO_FORMAT, NO_ROOM, PACKET_TOO_BIG, TOO_MANY_LABELS = 0, 5, 10, 11, 12, 13, 14, 15, 17
LONGEST = 2 ** 63 - 1


def table():
    """Tag and labels of each row, in the Rust's order."""
    text = (pathlib.Path(__file__).resolve().parent.parent / 'crates' / 'layout_rows' / 'stdout').read_text()
    fronts = [line.partition(' gets ')[0].partition(':') for line in text.splitlines()]
    rows = [(int(tag), tuple(map(int, labels.split()))) for tag, _, labels in fronts if tag != 'none']
    assert len(rows) == 43, 'the rows are not those that document 01 counts'
    return rows


ROWS = table()
# 01 names the labels of this tag
LEFT, RIGHT = dict(ROWS)[6619138]


def chunk(kind, body):
    return kind + struct.pack('>q', len(body)) + body


def chan(labels):
    """The body of `chan`: the tag of the first row with exactly these labels, or else descriptions, under CAF's tag 0."""
    tag = next((tag for tag, order in ROWS if labels and order == labels), None)
    if tag is not None:
        return struct.pack('>III', tag, 0, 0)
    return struct.pack('>III', 0, 0, len(labels)) + b''.join(struct.pack('>IIfff', label, 0, 0, 0, 0) for label in labels)


class Writer:
    """A record and the file in the room that is lent. Each call gives its number. 19 cannot come: these calls keep a record sound."""

    def __init__(self, room=b''):
        self.room, self.length = room, 0
        self.order, self.desc, self.chan = pcm.BIG, None, None
        self.start, self.finished = None, False

    def set_labels(self, labels, channels):
        # 01 counts 47 labels and does not list them, so 16 is not worked out here
        assert all(any(label in order for _, order in ROWS) for label in labels), 'a label that no row has'
        if self.start is not None:  # 02, T-08: the header settles format and layout
            return HEADER_ALREADY
        if len(labels) == channels and len(labels) > 64:
            return TOO_MANY_LABELS
        self.chan = chan(labels) if len(labels) == channels else None
        return DONE

    def configure(self, rate, channels, bits, labels):
        """Format and labels in one call: both or neither. The flags are 0, as in 01's listing: whole numbers, big-endian."""
        packet = -(-bits // 8) * channels  # 02, T-02: rounded up
        if self.start is not None:
            return HEADER_ALREADY
        if math.isnan(rate):
            return BAD_RATE
        if packet >= 2 ** 32:
            return PACKET_TOO_BIG
        number = self.set_labels(labels, channels)
        if number == DONE:
            self.desc = struct.pack('>d4sIIIII', rate, b'lpcm', 0, packet, 1, channels, bits)
        return number

    def append(self, s):
        if self.length + len(s) > min(len(self.room), LONGEST):
            return NO_ROOM
        self.room = self.room[:self.length] + s + self.room[self.length + len(s):]
        self.length += len(s)
        return DONE

    def header(self):
        if self.finished:
            return FINISHED
        if self.start is not None:
            return HEADER_ALREADY
        if self.desc is None:
            return NO_FORMAT
        layout = b'' if self.chan is None else chunk(b'chan', self.chan)
        number = self.append(b'caff' + struct.pack('>HH', 1, 0) + chunk(b'desc', self.desc) + layout + b'data' + struct.pack('>qI', -1, 0))
        if number == DONE:
            self.start = self.length
        return number

    def samples(self, xs):
        if self.finished:
            return FINISHED
        if self.start is None:
            return NO_HEADER
        if self.desc is None:  # 02, T-08: of a resumed file alone
            return NO_FORMAT
        return self.append(pcm.packed(xs, self.order))

    def data(self, s):
        if self.finished:
            return FINISHED
        if self.start is None:
            return NO_HEADER
        return self.append(s)

    def finish(self):
        if self.start is None:
            return NO_HEADER
        if not self.finished:
            size = self.start - 12
            self.room = self.room[:size] + struct.pack('>q', self.length - self.start + 4) + self.room[size + 8:]
            self.finished = True
        return DONE

# around bits that fill no byte, and where the product reaches 2^32
PACKETS = [(20, 2), (0, 2), (31, 2 ** 30 - 1), (31, 2 ** 30), (20, 1431655765), (20, 1431655766), (2 ** 32 - 1, 7), (2 ** 32 - 1, 8)]


def lines():
    w = Writer(bytes([pcm.BYTE] * 100))

    def told(w, call, number):
        return f'{call} {number}, file {w.length}'

    yield told(w, 'configure', w.configure(48000.0, 2, 24, (LEFT, RIGHT)))
    yield told(w, 'header', w.header())
    yield told(w, 'samples', w.samples([1, -1]))
    yield told(w, 'finish', w.finish())
    yield 'file' + pcm.hexes(w.room[:w.length])
    yield 'after' + pcm.hexes(w.room[w.length:])
    for n in 64, 65:
        yield f'labels {n}: {Writer().set_labels((LEFT,) * n, n)}'
    for bits, channels in PACKETS:
        made = Writer(bytes([pcm.BYTE] * 68))
        # no labels for so many channels: no layout
        number = made.configure(48000.0, channels, bits, ())
        made.header()
        yield f'bits {bits} channels {channels}: {number}, packet{pcm.hexes(made.room[36:40])}'
    yield told(w, 'labels', w.set_labels((LEFT, RIGHT), 2))
    # resumed: an open file of 24 bytes that has no `desc`, and room for three more
    bare = Writer(b'caff' + struct.pack('>HH', 1, 0) + b'data' + struct.pack('>qI', -1, 0) + b'???')
    bare.length = bare.start = 24
    yield told(bare, 'samples', bare.samples([1]))
    yield told(bare, 'no samples', bare.samples([]))
    yield told(bare, 'bytes', bare.data(b'abc'))


if __name__ == '__main__':
    pcm.main('writer_model', 'writer_example', list(lines()), __doc__)
