"""What the comparison of two films is due to say, as the object that `--json` prints: made from what the films were made of, by document 02's
words for T-12."""
import decimal
import fractions
import math
import struct

import caf_files as caf

NAMES = {1: 'Left', 2: 'Right', 3: 'Center', 4: 'LFE Screen', 5: 'Left Surround', 6: 'Right Surround', 300: None}
ORDERS = {caf.STEREO: (1, 2), 7929862: (1, 2, 3, 4, 5, 6)}
LPCM = struct.unpack('>I', b'lpcm')[0]


class Film:
    """`audio` is big-endian; a little-endian film has each sample turned round, and the bytes after the last whole sample as they are."""

    def __init__(self, audio, channels=2, rate=48000.0, little=False, per_packet=1, tag=None, labels=(), bitmap=0, bits=24, flags=0, size=None,
                 before=b'', tail=b''):
        self.audio, self.channels, self.rate, self.flags = audio, channels, rate, flags | 2 * little
        self.per_packet, self.tag, self.labels, self.bitmap, self.bits = per_packet, tag, labels, bitmap, bits
        self.packet = -(-bits // 8) * channels
        self.size, self.before, self.tail = size, before, tail

    def layout(self):
        return b'' if self.tag is None else caf.chan(self.tag, self.labels, self.bitmap)

    def stored(self):
        if not self.flags & 2:
            return self.audio
        whole = len(self.audio) // 3 * 3
        turned = bytearray(self.audio)
        turned[0:whole:3], turned[2:whole:3] = self.audio[2:whole:3], self.audio[0:whole:3]
        return bytes(turned)

    def bytes(self):
        desc = caf.desc(self.rate, self.channels, self.bits, self.flags, self.packet, per_packet=self.per_packet)
        return caf.header() + desc + self.before + self.layout() + caf.data(self.stored(), self.size) + self.tail

    def frame(self):
        return 3 * self.channels

    def frames(self):
        return len(self.audio) // self.frame()

    def rest(self):
        """The last bytes are compared as they stand in the file."""
        return self.stored()[self.frames() * self.frame():]

    def name(self, channel):
        labels = self.labels if self.tag == caf.DESCRIPTIONS else ORDERS.get(self.tag, ())
        return NAMES[labels[channel]] if channel < len(labels) else None

    def seconds(self, frames):
        if not self.rate > 0 or math.isinf(self.rate):
            return None
        milliseconds = frames * 1000 * fractions.Fraction(1) // fractions.Fraction(self.rate)
        return decimal.Decimal(milliseconds) / 1000 if milliseconds < 2**64 else None


def sample(film, k):
    return film.audio[3 * k:3 * k + 3]


def counted(one, two, common):
    counts, first = [0] * one.channels, None
    for i in range(common):
        at = i * one.frame()
        if one.audio[at:at + one.frame()] == two.audio[at:at + one.frame()]:
            continue
        first = i if first is None else first
        for c in range(one.channels):
            counts[c] += sample(one, i * one.channels + c) != sample(two, i * one.channels + c)
    return counts, first


def rate_of(film):
    return str(film.rate) if math.isinf(film.rate) else decimal.Decimal(repr(film.rate))


def found(one, two, names):
    pairs = {'format_id': [LPCM, LPCM]} | {key: [value(one), value(two)] for key, value in {
        'flags': lambda film: film.flags, 'bytes_per_packet': lambda film: film.packet, 'frames_per_packet': lambda film: film.per_packet,
        'channels': lambda film: film.channels, 'bits': lambda film: film.bits}.items()}
    common = min(one.frames(), two.frames())
    samples, first = counted(one, two, common)
    surplus = [one.frames() - common, two.frames() - common]
    facts = {'rate': struct.pack('>d', one.rate) != struct.pack('>d', two.rate), **{key: a != b for key, (a, b) in pairs.items()},
             'layout': one.layout() != two.layout(), 'samples': first is not None, 'frames': any(surplus), 'rest': one.rest() != two.rest()}
    differs = [key for key, fact in facts.items() if fact]
    return {'names': names, 'state': 'different' if differs else 'same', 'differs': differs, 'rate': [rate_of(one), rate_of(two)], **pairs,
            'layout': [one.tag, two.tag], 'frames': common, 'samples': samples,
            'channel_names': [[one.name(c), two.name(c)] for c in range(one.channels)], 'first': first,
            'first_seconds': [None, None] if first is None else [one.seconds(first), two.seconds(first)], 'surplus': surplus,
            'surplus_seconds': [one.seconds(surplus[0]), two.seconds(surplus[1])], 'rest': [len(one.rest()), len(two.rest())]}
