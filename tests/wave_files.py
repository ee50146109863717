"""WAVE files made from the table in docs/FORMAT.md, for the tests."""
import pathlib
import re
import struct

PCM = bytes.fromhex('0100000000001000800000aa00389b71')
ONES = b'\xff' * 4
# the names of labels for people; tests/names.c holds them to the Rust's
HEADER = (pathlib.Path(__file__).parent.parent / 'include' / 'caf_names.h').read_text()
NUMBERS = dict(re.findall(r'#define CAF_(LABEL_\w+) +(\d+)u', HEADER))
NAMES = {int(NUMBERS[label]): name for label, name in re.findall(r'case CAF_(LABEL_\w+): return "(.*)";', HEADER)}


def mask_of(labels):
    return sum(1 << label - 1 for label in labels)


def head(labels, payload, rate=48000):
    block, size = 3 * len(labels), 60 + payload + payload % 2
    fmt = b'fmt ' + struct.pack('<IHHIIHHHHI', 40, 0xfffe, len(labels), rate, rate * block, block, 24, 22, 24, mask_of(labels)) + PCM
    if size <= 4294967294:
        return b'RIFF' + struct.pack('<I', size) + b'WAVE' + fmt + b'data' + struct.pack('<I', payload)
    ds64 = b'ds64' + struct.pack('<IQQQI', 28, size + 36, payload, payload // block, 0)
    return b'RF64' + ONES + b'WAVE' + ds64 + fmt + b'data' + ONES


def wave(labels, samples, rate=48000):
    """The samples stand with their low byte first."""
    return head(labels, len(samples), rate) + samples + bytes(len(samples) % 2)


def turned(samples):
    other = bytearray(len(samples))
    for i in range(3):
        other[i::3] = samples[2 - i::3]
    return bytes(other)


def line(name, labels, payload, rate=48000):
    """What the program says of such a file."""
    frames = payload // (3 * len(labels))
    return (f'{head(labels, payload)[:4].decode()} rate {rate} channels {len(labels)} mask 0x{mask_of(labels):X} labels {",".join(NAMES[label] for label in labels)} '
            f'payload {payload} frames {frames} seconds {frames // rate}.{frames % rate * 1000 // rate:03} {name}\n')
