"""What the attempts of checks/hangs share."""
import os

import wire
from wants import want

# So many seconds an attempt has, and a server to end behind its last connection; all of it takes a few. A program that is built to
# look at each access of memory takes more: then SLOWER says how many times.
SLOWER = int(os.environ.get("SLOWER", "1"))
LIMIT = 25 * SLOWER
END = 10 * SLOWER
LIVE = 64
BEGIN = wire.PREFACE + wire.settings()
# Windows that never shut.
WIDE = wire.PREFACE + wire.settings((wire.INITIAL_WINDOW, 0x7FFFFFFF)) + wire.credit(0, 0x7FFFFFFF - wire.WINDOW)
EMPTY_CALL = wire.PREFACE + wire.settings() + wire.open_call(1, "EmptyCall") + wire.data(1, wire.message(), end=True)
# A request by which a call ends with a status, though its half is open.
FAILING = wire.message(wire.bytes_field(7, wire.number_field(1, 3)))


def ended(frames):
    """The streams that were ended, by END_STREAM."""
    return [stream for kind, flags, stream, _ in frames if wire.ends_stream(kind, flags, stream, _)]


def resets(frames):
    """The streams that were reset, with their codes."""
    return [(stream, int.from_bytes(content, "big")) for kind, _, stream, content in frames if kind == wire.RST_STREAM]


def data_length(frames):
    return sum(len(content) for kind, _, _, content in frames if kind == wire.DATA)


def served(program, connections=1, **environment):
    """A decorator of what is done to a server, which must end by itself then, with status 0."""

    def of(act):
        server = wire.Server(program, connections, **environment)
        try:
            act(server.port)
            status = server.ends(END)
            want(status is not None, f"the server had not ended {END} s behind its last connection")
            want(status == 0, f"the server ended with status {status}")
        finally:
            server.close()

    return of


def many_replies(count, size):
    """A request for so many replies, and the bytes that these have in DATA."""
    request = wire.message(wire.output_request(*[size] * count))
    return request, count * len(wire.message(wire.response(size)))


def all_over(peer, streams):
    """All frames until each of these streams was ended or reset."""
    waiting, frames = {*streams}, []
    while waiting:
        frames += peer.read_until(lambda *frame: wire.ends_stream(*frame) or frame[0] == wire.RST_STREAM)
        waiting.discard(frames[-1][2])
    return frames
