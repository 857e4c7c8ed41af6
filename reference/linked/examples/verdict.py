"""The verdict on a sheet that stands on standard input, printed as the program `verdict` prints it:
python3 verdict.py LIBRARY [LIST.bans] < SHEET.csv

LIBRARY is the library as a shared object, which docs/LINKING.md tells how to make. With a ban list the verdict is that under its bans.
"""

import ctypes
import os
import sys

# From include/furlazon.h.
SHEET_BYTES = 4096
BANS_BYTES = 4096
TABLE_BYTES = 1666
ANSWER_ENTRIES = 4
VERDICT_ENTRIES = 8384
VERDICT_WORK = 16384
AMBIGUOUS = 1
DELAY = 2
WITHOUT_BOUND = 3

# A buffer crosses as a pointer and a length. Without these declarations ctypes would take every argument and result for a C int.
BYTES = [ctypes.POINTER(ctypes.c_uint8), ctypes.c_size_t]
NUMBERS = [ctypes.POINTER(ctypes.c_uint64), ctypes.c_size_t]
FUNCTIONS = {
    "furlazon_take_in": 2 * BYTES,
    "furlazon_enlarge": 3 * BYTES,
    "furlazon_verdict": 4 * BYTES + 2 * NUMBERS,
}


def load(path):
    """The library, with the types of the functions that are called here."""
    library = ctypes.CDLL(os.path.abspath(path))
    for name, types in FUNCTIONS.items():
        function = getattr(library, name)
        function.argtypes = types
        function.restype = ctypes.c_uint64
    return library


def call(function, *buffers):
    """Calls a function with each buffer and its length."""
    return function(*(argument for buffer in buffers for argument in (buffer, len(buffer))))


def byte_buffer(entries):
    return (ctypes.c_uint8 * entries)()


def number_buffer(entries):
    return (ctypes.c_uint64 * entries)()


def holding(content):
    return (ctypes.c_uint8 * len(content)).from_buffer_copy(content)


def verdict(library, sheet, bans):
    """The records that tell the verdict on a sheet under a ban list, or why there is none."""
    table, enlarged = byte_buffer(TABLE_BYTES), byte_buffer(TABLE_BYTES)
    message, first, second = (byte_buffer(VERDICT_ENTRIES) for _ in range(3))
    work, answer = number_buffer(VERDICT_WORK), number_buffer(ANSWER_ENTRIES)
    refused = (
        call(library.furlazon_take_in, holding(sheet), table)
        or call(library.furlazon_enlarge, table, holding(bans), enlarged)
        or call(library.furlazon_verdict, enlarged, message, first, second, work, answer)
    )
    if refused != 0:
        return [f"refused,{refused}"]
    kind, length, first_length, second_length = answer
    if kind == DELAY:
        return [f"decipherable,{length}"]
    if kind == WITHOUT_BOUND:
        return ["decipherable,unbounded"]
    assert kind == AMBIGUOUS
    symbols = "".join(f"{symbol:X}" for symbol in message[:length])
    readings = (first[:first_length], second[:second_length])
    return [f"ambiguous,{symbols}"] + [",".join(map(str, reading)) for reading in readings]


def main():
    if len(sys.argv) not in (2, 3):
        sys.exit("usage: verdict.py LIBRARY [LIST.bans] < SHEET.csv")
    library = load(sys.argv[1])
    # One byte past the limit is enough to see that a sheet or a list is too long.
    sheet = sys.stdin.buffer.read(SHEET_BYTES + 1)
    bans = b""
    if len(sys.argv) == 3:
        with open(sys.argv[2], "rb") as file:
            bans = file.read(BANS_BYTES + 1)
    for record in verdict(library, sheet, bans):
        sys.stdout.buffer.write(record.encode("ascii") + b"\r\n")


if __name__ == "__main__":
    main()
