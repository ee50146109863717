"""Writes the example film to standard output, from Python: user.py LIBCAF.SO"""
import ctypes
import sys

RECORD, FILE_LEN, ROOM = 84, 79, 1400

caf = ctypes.CDLL(sys.argv[1])
record, room = (ctypes.c_uint64 * RECORD)(), ctypes.c_size_t(ROOM)
file, size = (ctypes.c_uint8 * ROOM)(), ctypes.c_size_t(RECORD)
labels, samples, two = (ctypes.c_uint32 * 2)(1, 2), (ctypes.c_int32 * 2)(1, -1), ctypes.c_size_t(2)
numbers = [
    caf.caf_new(record, size),
    caf.caf_configure_format(record, size, ctypes.c_double(48000), 2, 24, labels, two),
    caf.caf_write_header(record, size, file, room),
    caf.caf_write_samples(record, size, file, room, samples, two),
    caf.caf_finish(record, size, file, room),
]
assert numbers == [0] * 5, numbers
sys.stdout.buffer.write(bytes(file[:record[FILE_LEN]]))
