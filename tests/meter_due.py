"""What the meter must say of a file, worked out from the file's own bytes and from what the test put there, with fractions and in the
words of meter/meter.c's first comment; and the meter's three shapes of a bill, read back."""
import csv
import dataclasses
import io
import json
import os
import pathlib
import re
import struct
from decimal import Decimal
from fractions import Fraction

TOP = pathlib.Path(__file__).resolve().parent.parent
WORDS = {int(number): word for number, word in re.findall(r'^\| (\d+) \| (\w+) \|', (TOP / 'docs' / 'FORMAT.md').read_text(), re.M)}
NUMBERS = ('number', 'chunks', 'payload', 'frames', 'packets')


@dataclasses.dataclass
class Entry:
    """What is known of a file; None where it is not."""
    name: bytes
    state: str
    number: int = None
    word: str = None
    chunks: int = None
    payload: int = None
    frames: int = None
    packets: int = None
    rate: float = None
    seconds: Decimal = None
    data: str = None
    why: str = None


def milliseconds(frames, rate):
    """None where the rate gives no seconds, or too many."""
    if not 0 < rate < float('inf'):
        return None
    exactly = Fraction(frames) * 1000 / Fraction(rate)
    return int(exactly) if exactly < 2 ** 64 else None


def seconds(ms):
    return Decimal(ms).scaleb(-3)


def refused(name, number, chunks):
    return Entry(name, 'refused', number, WORDS[number], chunks)


def read(folder, name, chunks, payload, data='closed', has_tail=False):
    """The entry of a file that is read, by its format and by whether more follows its data."""
    with open(os.path.join(os.fsencode(folder), name), 'rb') as file:
        rate, kind, _, packet, per_packet, channels, _ = struct.unpack('>d4sIIIII', file.read(52)[20:])
    entry = Entry(name, 'billed', 0, 'Done', chunks, payload, rate=rate, data=data)
    ms = None
    if kind != b'lpcm' or per_packet != 1 or packet == 0 or channels == 0:
        entry.packets = payload // packet if packet else None
    else:
        entry.frames = payload // packet
        ms = milliseconds(entry.frames, rate)
    if ms is None or payload == 0 and has_tail:
        entry.state = 'unbilled'
    else:
        entry.seconds = seconds(ms)
    return entry


def total(entries):
    billed = [entry for entry in entries if entry.state == 'billed']
    states = [entry.state for entry in entries]
    return {'files': len(billed), 'payload': sum(entry.payload for entry in billed), 'frames': sum(entry.frames for entry in billed),
            'seconds': sum((entry.seconds for entry in billed), seconds(0)),
            'open': sum(entry.data == 'open' for entry in billed), 'closed': sum(entry.data == 'closed' for entry in billed),
            'refused': states.count('refused'), 'unbilled': states.count('unbilled'), 'unreadable': states.count('unreadable')}


def plain_name(name):
    """A name as it stands in a line for people."""
    if not re.search(rb'[\x00-\x1f\x7f"\\]', name):
        return name
    escapes = {b'\n': rb'\n', b'\t': rb'\t', b'"': rb'\"', b'\\': rb'\\'}
    return b'"' + re.sub(rb'[\x00-\x1f\x7f"\\]', lambda at: escapes.get(at[0]) or b'\\x%02X' % at[0][0], name) + b'"'


def rate_text(rate):
    return next(text for text in (f'{rate:.{digits}g}' for digits in (15, 16, 17)) if float(text) == rate)


def plain_line(entry):
    if entry.state == 'unreadable':
        return b''
    if entry.state == 'refused':
        line = f'number {entry.number} {entry.word} chunks {entry.chunks} refused '
    else:
        count = f'frames {entry.frames}' if entry.frames is not None else f'packets {"unknown" if entry.packets is None else entry.packets}'
        line = f'number 0 chunks {entry.chunks} payload {entry.payload} {count} rate {rate_text(entry.rate)} '
        line += f'seconds {entry.seconds:.3f} {entry.data} ' if entry.state == 'billed' else 'unbilled '
    return line.encode() + plain_name(entry.name) + b'\n'


def plain_bill(entries):
    return b''.join(map(plain_line, entries)) + ('total ' + ' '.join(f'{key} {value}' for key, value in total(entries).items()) + '\n').encode()


def messages(entries):
    """Standard error: a line for each file that is not billed."""
    return b''.join(b'meter: %s: %s\n' % (plain_name(entry.name), entry.why.encode()) for entry in entries if entry.state != 'billed')


def typed(row):
    """A row of CSV, or an object of JSON, as an entry."""
    row = {key: None if value in ('', None) and key != 'name' else value for key, value in row.items()}
    for key, kind in [(key, int) for key in NUMBERS] + [('rate', float), ('seconds', Decimal)]:
        row[key] = row[key] if row[key] is None else kind(row[key])
    return Entry(row.pop('name').encode('utf-8', 'surrogateescape'), **row)


def from_csv(bill):
    assert bill.endswith(b'\r\n')
    return [typed(row) for row in csv.DictReader(io.StringIO(bill.decode('utf-8', 'surrogateescape'), newline=''), strict=True)]


def from_json(bill):
    said = json.loads(bill.decode(), parse_float=Decimal)
    return [typed(row) for row in said['files']], said['total']
