"""What the listing program prints, and how to see that it has read what was sent, for the tests."""
import array
import fcntl
import pathlib
import termios
import time

PROGRAM = [pathlib.Path(__file__).resolve().parent.parent / 'target' / 'bin' / 'list']


def listing(length, size_position, payload, state, frames, channels=2, packet=6, bits=24, layout='none'):
    return (f'file {length}\nrate 40e7700000000000\nid 1819304813\nflags 0\npacket {packet} 1\nchannels {channels} {bits}\n'
            f'data {size_position} {size_position + 12}\npayload {payload} {state}\nframes {frames}\nlayout {layout}\n')


def until_read(program, pipe):
    """Waits until the program has taken all that was written to the pipe."""
    count, limit = array.array('i', [0]), time.monotonic() + 30
    fcntl.ioctl(pipe, termios.FIONREAD, count)
    while count[0]:
        assert program.poll() is None and time.monotonic() < limit, 'the program reads no more'
        time.sleep(0.0005)
        fcntl.ioctl(pipe, termios.FIONREAD, count)
