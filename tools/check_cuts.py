#!/usr/bin/env python3
"""Holds the lines of the program `cuts` to demand 3, by a model of its own.

  check_cuts.py [FILE]     FILE: what the program wrote (crates/cuts/stdout)

The films, their sessions, the cut files and the two readings are made here from docs/FORMAT.md, without a line of the proved code;
tools/reading_model.py has the readings. Every line has to be there, in order (crates/cuts/src/main.rt says what it holds), and to say:
a file shorter than its header is refused by both readings and by resume, which leaves it as it is, and nothing had arrived; any other
is resumed and finished to the file of all data that arrived in all sessions, and the strict reading finds it with exactly those, or
answers 8, or, where the last resume was stopped within its stores, 4.
"""
import collections
import pathlib
import struct
import sys

here = pathlib.Path(__file__).resolve().parent
sys.path.insert(0, str(here))
import reading_model as model  # noqa: E402

LAYOUTS = [b'', struct.pack('>III', 0x650002, 0, 0), struct.pack('>III', 0, 0, 2) + b''.join(struct.pack('>IIIII', l, 0, 0, 0, 0) for l in (2, 1))]
OPEN = struct.pack('>q', -1)
BAD_SIZE, PAST_END = 4, 8

# a film so far: its layout, its file, the data that arrived, and whether the last resume was stopped within its stores
Film = collections.namedtuple('Film', 'layout file arrived reopening')
# the answer of a session's last call
Answer = collections.namedtuple('Answer', 'number stores')


def chunk(kind, body):
    return kind + struct.pack('>q', len(body)) + body


def header(layout):
    desc = struct.pack('>d', 48000.0) + b'lpcm' + struct.pack('>IIIII', 0, 6, 1, 2, 24)
    chan = chunk(b'chan', LAYOUTS[layout]) if layout else b''
    return b'caff\x00\x01\x00\x00' + chunk(b'desc', desc) + chan + b'data' + OPEN + bytes(4)


def closed(layout, data):
    top = header(layout)
    return top[:-12] + struct.pack('>q', len(data) + 4) + top[-4:] + data


def audio(session, start, end):
    return bytes((i * 29 + session * 101 + 3) % 256 for i in range(start, end))


def stored(file, at, some):
    return file[:at] + some + file[at + len(some):]


def begin(film, session, n):
    """The call that begins a session, stopped after n stores: the header, or a resume. Its answer, and the film then."""
    if session == 0:
        some = header(film.layout)[:n]
        return Answer(0, len(some)), film._replace(file=some)
    number, found = read(model.plain, film.file)
    if number:
        return Answer(number, 0), film
    some = OPEN[:n]
    within = 0 < len(some) < 8 or len(some) == 0 and film.reopening
    return Answer(0, len(some)), film._replace(file=stored(film.file, found[1], some), reopening=within)


def bring(film, data, n):
    """A data call, stopped after n stores."""
    some = data[:n]
    return Answer(0, len(some)), film._replace(file=film.file + some, arrived=film.arrived + some)


def finish(film, n):
    """A finish, stopped after n stores. It finds its size field 12 bytes before the data."""
    some = struct.pack('>q', len(film.arrived) + 4)[:n]
    return Answer(0, len(some)), film._replace(file=stored(film.file, len(header(film.layout)) - 12, some))


WHOLE = 10 ** 9


def session(film, number, last, n):
    """A session whose last call is stopped after n stores. Where its resume is refused it ends there."""
    if last == 0:
        return begin(film, number, n)
    answer, film = begin(film, number, WHOLE)
    if answer.number:
        return answer, film
    before = {2: 5, 4: 1, 5: 11, 6: 251, 7: 1}.get(last, 0)
    film = bring(film, audio(number, 0, before), WHOLE)[1]
    if last in (1, 2):
        return bring(film, audio(number, before, before + (1 if last == 1 else 6)), n)
    if last == 7:
        return Answer(0, 0), finish(film, WHOLE)[1]
    return finish(film, n)


def make(layout, sessions):
    answer, film = None, Film(layout, b'', b'', False)
    for number, (last, n) in enumerate(sessions):
        answer, film = session(film, number, last, n)
    return answer, film


def read(reading, file):
    """A reading's number, and what it finds."""
    try:
        return 0, reading(file)
    except model.Refused as refusal:
        return refusal.args[0], None


def digest(file):
    d = 0
    for byte in file:
        d = (d * 1000003 + byte) % 2 ** 32
    return d


def strict_words(file):
    number, found = read(model.strict, file)
    if number:
        return f'{number}'
    return '0 ' + ('open' if found[4] else 'closed') + f' {found[3]}'


def judged(film, said):
    """Demand 3, in the words of the two cases: what a resume and a finish make of the film; and its case."""
    plain = read(model.plain, film.file)[0]
    strict, found = read(model.strict, film.file)
    if len(film.file) < len(header(film.layout)):
        assert plain and strict and not film.arrived, said
        return f'{plain} {digest(film.file)}', 'short'
    assert plain == 0, said
    whole = closed(film.layout, film.arrived)
    rest = f'0 0 {digest(whole)} | {strict_words(whole)}'
    if strict == 0:
        assert film.file[found[2]:][:found[3]] == film.arrived and found[3] == len(film.arrived), said
        return rest, 'open' if found[4] else 'closed'
    assert strict == PAST_END or strict == BAD_SIZE and film.reopening, said
    return rest, {PAST_END: 'DataPastEnd', BAD_SIZE: 'BadSize'}[strict]


def line(layout, sessions):
    answer, film = make(layout, sessions)
    said = ' '.join([f'{layout}', *(f'{last}/{n}' for last, n in sessions)])
    said += f' | {answer.number} {answer.stores} {len(film.file)} {digest(film.file)}'
    said += f' | {read(model.plain, film.file)[0]} | {strict_words(film.file)}'
    rest, case = judged(film, said)
    return f'{said} | {rest}', case


def stores(layout, sessions, last):
    return make(layout, [*sessions, (last, WHOLE)])[0].stores


def one_more(layout, sessions):
    """Every last call of one session more, with every cut up to one store more than it has."""
    for last in range(8):
        for n in range(stores(layout, sessions, last) + 2):
            yield layout, [*sessions, (last, n)]


def two_more(layout, sessions, last):
    for n in range(stores(layout, sessions, last) + 1):
        yield from one_more(layout, [*sessions, (last, n)])


def films():
    for layout in range(3):
        yield from one_more(layout, [])
    for n in (1, 67):
        yield from one_more(0, [(0, n)])
    for last in (1, 2, 4, 6):
        yield from two_more(0, [], last)
    for last in (0, 2, 5):
        yield from two_more(2, [(4, 8)], last)


def listed(counts):
    return ', '.join(f'{what} {n}' for what, n in sorted(counts.items()))


def main():
    path = sys.argv[1] if len(sys.argv) > 1 else here.parent / 'crates' / 'cuts' / 'stdout'
    got = pathlib.Path(path).read_text().splitlines()
    cases, in_sessions, count = collections.Counter(), collections.Counter(), 0
    for count, film in enumerate(films(), 1):
        want, case = line(*film)
        cases[case] += 1
        in_sessions[len(film[1])] += 1
        said = got[count - 1] if count <= len(got) else 'nothing'
        if want != said:
            sys.exit(f'line {count}\n  demand 3: {want}\n  program:  {said}')
    if count != len(got):
        sys.exit(f'{len(got)} lines, where {count} are due')
    print(f'{count} cuts, each as demand 3 says; by sessions: ' + listed(in_sessions) + '; left: ' + listed(cases))


main()
