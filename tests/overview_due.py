"""What overview a film must have, for tests/overview and tests/overview_films, and how it is shown: the numbers, the picture in characters and the one in
SVG, worked out from the samples."""
import re
import struct

import caf_files as caf

# CAF's names of the 47 labels that the tests use
NAMES = {1: 'Left', 2: 'Right', 3: 'Center', 4: 'LFE Screen', 5: 'Left Surround', 6: 'Right Surround', 13: 'Vertical Height Left'}


def packed(samples, order='big'):
    """Samples of 24 bits."""
    return b''.join(sample.to_bytes(3, order, signed=True) for sample in samples)


def unpacked(audio, order='big'):
    return [int.from_bytes(audio[at:at + 3], order, signed=True) for at in range(0, len(audio), 3)]


def groups_of(samples, channels, frames):
    """For each group of so many frames and in it for each channel the least and the greatest, divided by 256 and rounded down."""
    for at in range(0, len(samples), channels * frames):
        group = samples[at:at + channels * frames]
        yield [(min(group[c::channels]) // 256, max(group[c::channels]) // 256) for c in range(channels)]


def usual_frames(frames):
    """The least power of 2 that makes at most 4000 groups."""
    usual = 1
    while -(-frames // usual) > 4000:
        usual *= 2
    return usual


def chunk(groups, frames, edits=0):
    numbers = [number for group in groups for pair in group for number in pair]
    return caf.chunk(b'ovvw', struct.pack(f'>II{len(numbers)}h', edits, frames, *numbers))


def json_of(name, groups, frames, channels, is_stored, names=None, rate=48000, edits=0, data_edits=0):
    return {'name': name, 'is_stored': is_stored, 'edits': edits, 'data_edits': data_edits, 'rate': rate, 'frames_per_sample': frames,
            'groups': len(groups), 'channels': channels,
            'bands': [{'name': names[c] if names else f'Channel {c + 1}', 'least': [group[c][0] for group in groups],
                       'greatest': [group[c][1] for group in groups]} for c in range(channels)]}


def columns_of(groups, channel, width):
    """What each column shows: the least and the greatest of its groups, or of the one that it stands in."""
    for column in range(width):
        first = column * len(groups) // width
        shown = groups[first:max(first + 1, (column + 1) * len(groups) // width)]
        yield min(group[channel][0] for group in shown), max(group[channel][1] for group in shown)


def level(sample, levels):
    """Of so many, from the top."""
    return (32767 - sample) * levels // 65536


def band(groups, channel, width, rows, characters):
    """The rows of a band, two levels each. Characters for neither half, the upper, the lower and both."""
    columns = [(level(greatest, 2 * rows), level(least, 2 * rows)) for least, greatest in columns_of(groups, channel, width)]
    return [''.join(characters[(top <= 2 * row <= bottom) + 2 * (top <= 2 * row + 1 <= bottom)] for top, bottom in columns) for row in range(rows)]


def drawn(path):
    """The edges of a shape in SVG, column by column: the upper from the left, the lower from the right."""
    start, *steps = re.findall(r'([MVh])([-\d ]+)', path.removesuffix('z'))
    assert path.endswith('z') and start[0] == 'M' and start[1].startswith('0 ')
    y, edges = int(start[1][2:]), {True: [], False: []}
    for letter, number in steps:
        if letter == 'V':
            y = int(number)
        else:
            edges[int(number) > 0] += [y] * abs(int(number))
    return list(zip(edges[True], reversed(edges[False])))


def shape(groups, channel, width, height):
    """The same, as it should be: rounded to the next."""
    return [tuple(((32767 - sample) * height + 32767) // 65535 for sample in (greatest, least)) for least, greatest in columns_of(groups, channel, width)]
