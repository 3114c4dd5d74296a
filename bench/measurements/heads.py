"""Requests over HTTP whose head is as long as one may be, 8,192 octets, in one field and in the most, 32: the processor
time of one by `serve_one`, with the reader and the writer in memory, beside that of a head of 200 octets in as many
fields. Each is the least of five runs in turns."""

from measurements.timing import processor_time
from modules.programs import built

RUNS = 5
COUNT = 10_000
MOST, SHORT = 8_192, 200
FIELDS = (1, 32)


def microseconds(program, fields, octets):
    """The processor time of one request, without that of starting the program."""
    spent, started = (
        processor_time(count, program, "work", "head", str(count), str(fields), str(octets)) for count in (COUNT, 0)
    )
    return (spent - started) / COUNT * 1e6


def ratios(folder):
    program = built("player")
    heads = [(fields, octets) for fields in FIELDS for octets in (MOST, SHORT)]
    runs = [[microseconds(program, *head) for head in heads] for _ in range(RUNS)]
    least = dict(zip(heads, map(min, zip(*runs))))
    for fields in FIELDS:
        one, other = least[fields, MOST], least[fields, SHORT]
        what = f"a head of {MOST:,} octets, fields: {fields}"
        yield what, f"{one:.1f} us", f"one of {SHORT} octets {other:.1f} us", one / other
