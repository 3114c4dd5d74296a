"""The reading of a time-stamp request of 59 octets by `read_request`, beside OpenSSL's d2i_TS_REQ and TS_REQ_free: the
processor time of one reading, the least of five runs in turns."""

from measurements.timing import compiled_peer, processor_time
from modules.programs import built

RUNS = 5
OURS, OPENSSL = 5_000_000, 500_000


def nanoseconds(count, *words):
    """The processor time of one reading, without that of starting the program."""
    spent, started = (processor_time(times, *words, str(times)) for times in (count, 0))
    return (spent - started) / count * 1e9


def ratios(folder):
    ours, openssl = built("player"), compiled_peer("request", folder, "-lcrypto")
    runs = [(nanoseconds(OURS, ours, "work", "read"), nanoseconds(OPENSSL, openssl)) for _ in range(RUNS)]
    one, other = (min(times) for times in zip(*runs))
    yield "a request read", f"{one:.0f} ns", f"d2i_TS_REQ and TS_REQ_free {other:.0f} ns", one / other
