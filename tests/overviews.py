"""Overviews for tests/overview_films: what they must be, worked out from the samples; films that take none, and ends that are none of ours."""
import struct

import caf_files as caf
import films
import overview_due as due
from films import closed, opened, sized


def overview(audio, group, channels=2, order='big', edits=0):
    """The chunk that some audio has."""
    return due.chunk(list(due.groups_of(due.unpacked(audio, order), channels, group)), group, edits)


def little(audio, edits=0):
    """A film of one channel whose samples are little-endian, with its own edit count."""
    return caf.header() + caf.desc(channels=1, flags=2) + caf.chunk(b'data', struct.pack('>I', edits) + audio)


INFO = caf.chunk(b'info', b'title')
AUDIO = films.noise(60)
FILM = closed(AUDIO)
WHOLE = overview(AUDIO, 5)


def with_desc(**of):
    return caf.header() + caf.desc(**of) + caf.data(AUDIO)


# name: a film that gets no overview, and the number
REFUSED = {
    'open': (opened(AUDIO), 25),
    '20 bits': (with_desc(bits=20), 27),
    '16 bits': (with_desc(bits=16), 27),
    '32 bits': (with_desc(bits=32), 27),
    'float': (with_desc(flags=1), 27),
    'four bytes a sample': (with_desc(packet=8), 27),
    'another format': (with_desc(kind=b'alac'), 27),
    'no channels': (with_desc(channels=0, packet=0), 27),
    'a frame that is not whole': (closed(AUDIO[:59]), 27),
    'an overview': (FILM + WHOLE, 24),
    'one of another house after other chunks': (FILM + INFO + caf.chunk(b'ovvw', b'') + INFO, 24),
    'a cut one': (FILM + WHOLE[:-1], 1),
    'nothing counted': (closed(b'') + bytes(120), 24),
    'cut in its finish': (sized(AUDIO, b'\0' + b'\xff' * 7), 8),
    'no film': (b'a text of some length', 2),
    'version 2': (b'caff\0\2\0\0' + FILM[8:], 6),
    'empty': (b'', 1),
}


def changed(chunk, at, value):
    return chunk[:at] + value + chunk[at + len(value):]


# name: a film that ends in no overview of ours, however like one it looks
LIKE_ONE = {
    'another letter': FILM + b'p',
    'another name': FILM + b'ovx',
    'another name, whole': FILM + b'ovvx' + WHOLE[4:-1],
    'a zero': FILM + b'\0',
    'info, cut': FILM + INFO[:-1],
    'info, and a byte': FILM + INFO + b'i',
    'a size that is too big': FILM + changed(WHOLE, 4, b'\1')[:5],
    'a size that is negative': FILM + changed(WHOLE, 4, b'\xff')[:5],
    'a size beyond a pair for each sample': FILM + changed(WHOLE, 11, b'\xa9')[:-1],
    'a size below one group': FILM + changed(WHOLE, 11, b'\x0f')[:12],
    'a size of no groups': FILM + changed(WHOLE, 11, b'\x08')[:19],
    'a size that no groups have': FILM + changed(WHOLE, 11, b'\x29')[:12],
    # 10 frames in 6 groups: 2 frames make 5, and 1 makes 10
    'groups that no frames give': FILM + changed(WHOLE, 11, bytes([8 + 8 * 6]))[:12],
    'another edit': FILM + changed(WHOLE, 15, b'\1')[:-1],
    'another edit, cut': FILM + changed(WHOLE, 12, b'\1')[:13],
    'no frames per sample': FILM + changed(WHOLE, 16, bytes(4))[:-1],
    'other frames per sample': FILM + changed(WHOLE, 19, b'\4')[:-1],
    'other frames per sample, cut': FILM + changed(WHOLE, 16, b'\1')[:17],
    'a second overview, cut': FILM + WHOLE + WHOLE[:-1],
    'an overview and a byte': FILM + WHOLE + b'o',
    'of 16 bits': with_desc(bits=16) + WHOLE[:-1],
    'of float': with_desc(flags=1) + WHOLE[:-1],
    'of a frame that is not whole': closed(AUDIO[:59]) + WHOLE[:-1],
    # the least size for 100 channels is 0198
    'a size of fewer channels': caf.header() + caf.desc(channels=100) + caf.data(bytes(300)) + b'ovvw' + bytes(7),
    'the name after no payload, cut': closed(b'') + b'ovv',
    'no frames per sample, after no payload': closed(b'') + caf.chunk(b'ovvw', bytes(8)),
    'after no payload, and others behind': closed(b'') + overview(b'', 5) + INFO,
    'after no payload, behind others': closed(b'') + INFO + b'ovvw',
    'a second data before it': FILM + caf.data(AUDIO) + WHOLE[:-1],
    'version 2': b'caff\0\2\0\0' + FILM[8:] + WHOLE[:-1],
}
