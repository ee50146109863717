"""Films for tests/film, tests/recover and tests/overview_films: the programs, and what a film must be, made from the layout of document 01 and not by the library."""
import fcntl
import pathlib
import random
import signal
import struct
import subprocess

import caf_files as caf

TOP = pathlib.Path(__file__).resolve().parent.parent
SEED = 20261115
# what tests/film_writer.c sets: 48 kHz, 24 bits, Right and Left, which no tag names
HEAD = caf.header() + caf.desc() + caf.chan(caf.DESCRIPTIONS, (2, 1))
START = len(HEAD) + len(caf.data(b''))
FIELD = START - 12
FRAME = 6


def closed(audio):
    return HEAD + caf.data(audio)


def sized(audio, field):
    """A film with these eight bytes in its size field."""
    return HEAD + b'data' + field + bytes(4) + audio


def opened(audio):
    return sized(audio, b'\xff' * 8)


def size_field(audio):
    return struct.pack('>q', len(audio) + 4)


def noise(length):
    return random.Random(SEED).randbytes(length)


def spread(path):
    """An open film of six bytes with 10,000 chunks before its data, each on a page of its own: 40 MiB of pages."""
    path.write_bytes(caf.header() + caf.desc() + caf.chunk(b'free', bytes(4084)) * 10000 + caf.data(bytes(6), -1))


def has_leases(path):
    """Whether the system tells of programs that have this file open for writing, to its owner."""
    with path.open('rb') as file:
        try:
            fcntl.fcntl(file, fcntl.F_SETSIG, signal.SIGURG)
            fcntl.fcntl(file, fcntl.F_SETLEASE, fcntl.F_RDLCK)
        except OSError:
            return False
    return True


def build():
    """Builds the layer, and gives the path of recover."""
    made = subprocess.run([TOP / 'film' / 'build'], check=True, stdout=subprocess.PIPE, text=True).stdout.split()
    return TOP / made[1]


def build_writer():
    """Builds film_writer, which the linker gives a disk with faults."""
    return build_test('film_writer', '-Wl,--wrap=pwrite,--wrap=fdatasync,--wrap=open,--wrap=flock')


def build_test(name, *flags):
    """Builds a test in C over the layer, and gives its path."""
    library = subprocess.run([TOP / 'tools' / 'archive'], check=True, stdout=subprocess.PIPE, text=True).stdout.strip()
    made = TOP / 'target' / name
    subprocess.run(['cc', '-std=c11', '-O2', '-Wall', '-Wextra', '-Werror', f'-I{TOP}/include', f'-I{TOP}/film', *flags, '-o', made,
                    TOP / 'tests' / f'{name}.c', TOP / 'target' / 'film' / 'libfilm.a', f'{library}/libcaf.a', '-pthread'], check=True)
    return made
