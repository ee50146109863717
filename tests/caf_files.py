"""CAF files made from the layout of document 01, for the tests."""
import struct

STEREO = 6619138
DESCRIPTIONS = 0
BITMAP = 65536


def chunk(name, body, size=None):
    return name + struct.pack('>q', len(body) if size is None else size) + body


def header(version=1):
    return b'caff' + struct.pack('>HH', version, 0)


def desc(rate=48000.0, channels=2, bits=24, flags=0, packet=None, kind=b'lpcm', per_packet=1):
    packet = -(-bits // 8) * channels if packet is None else packet
    return chunk(b'desc', struct.pack('>d', rate) + kind + struct.pack('>IIIII', flags, packet, per_packet, channels, bits))


def chan(tag, labels=(), bitmap=0):
    body = struct.pack('>III', tag, bitmap, len(labels))
    return chunk(b'chan', body + b''.join(struct.pack('>IIfff', label, 0, 0.0, 0.0, 0.0) for label in labels))


def data(audio, size=None):
    """size -1 is an open file; None is the right size of a closed one"""
    return chunk(b'data', struct.pack('>I', 0) + audio, size)


def example():
    """Document 01's example: samples 1 and -1"""
    return header() + desc() + chan(STEREO) + data(b'\x00\x00\x01\xff\xff\xff')
