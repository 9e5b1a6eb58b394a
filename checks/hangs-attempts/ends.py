"""Attempts of checks/hangs: how a connection ends: by its input, a TCP reset, or an error."""
import os
import random
import struct
import subprocess
import tempfile
import time
from concurrent.futures import ThreadPoolExecutor

import refusing
import wire
from common import BEGIN, EMPTY_CALL, END, LIMIT, LIVE, WIDE, ended, resets, served
from wants import want

# So many connections at once, and so many threads of theirs that take further ones.
CROWD, STAYING = 40, 4
# What GOAWAY tells of HEADERS on stream 2, and of a window that is too large.
NO_STREAM = b"HEADERS on an even stream, or on one below the greatest that was begun (RFC 9113, 5.1.1)"
WINDOW = b"a window over 2,147,483,647, by WINDOW_UPDATE or setting 4 (RFC 9113, 6.9.1, 6.9.2)"


def idle_workers_at_the_end(program):
    """64 workers that have nothing to do when the input ends; and a connection without calls, and without bytes."""

    @served(program, 3)
    def _(port):
        peer = wire.Peer(port, LIMIT)
        streams = range(1, 2 * LIVE, 2)
        peer.send(BEGIN, *[wire.open_call(stream, "FullDuplexCall") for stream in streams], wire.ping())
        peer.read_until(wire.is_ping_answer)
        peer.send(*[wire.data(stream, end=True) for stream in streams])
        for _ in streams:
            peer.read_until(wire.ends_stream)
        time.sleep(0.2)
        peer.shut()
        peer.read_all()
        for begin in (BEGIN, b""):
            silent = wire.Peer(port, LIMIT)
            silent.send(begin)
            time.sleep(0.1)
            silent.shut()
            silent.read_all()


def silent_calls_at_the_end(program):
    """64 calls that wait for messages when the input ends, in order and by a TCP reset. In order each is reset with CANCEL; trailers of
    one that is told of that may come first."""
    streams = range(1, 2 * LIVE, 2)

    @served(program, 2)
    def _(port):
        for leave in (wire.Peer.shut, wire.Peer.abort):
            peer = wire.Peer(port, LIMIT)
            peer.send(BEGIN, *[wire.open_call(stream, "FullDuplexCall") for stream in streams], wire.ping())
            peer.read_until(wire.is_ping_answer)
            leave(peer)
            if leave is wire.Peer.shut:
                frames = peer.read_all()
                cancelled = [stream for stream, code in resets(frames) if code == 8]
                want(sorted(cancelled + ended(frames)) == [*streams], f"{cancelled} were reset with CANCEL")
                want(len(cancelled) > LIVE // 2, f"{len(cancelled)} calls alone were reset with CANCEL")


def calls_while_the_connection_breaks(program):
    """Peers that open calls for large replies and leave by a TCP reset at some moment. Others are served on."""
    moments = random.Random(9)
    request = wire.message(wire.output_request(*[20_000] * 5))

    # (behind the last of its connections the server drains the others)
    @served(program, 42)
    def _(port):
        other = wire.Peer(port, LIMIT)
        other.send(BEGIN)
        for _ in range(40):
            peer = wire.Peer(port, LIMIT)
            peer.send(WIDE)
            for stream in range(1, 2 * moments.randrange(2, LIVE), 2):
                try:
                    peer.send(wire.open_call(stream, "StreamingOutputCall"), wire.data(stream, request, end=True))
                except OSError:
                    break
            time.sleep(moments.random() * 0.02)
            peer.abort()
        other.send(wire.open_call(1, "EmptyCall"), wire.data(1, wire.message(), end=True))
        other.read_until(wire.ends_stream)
        other.shut()
        other.read_all()
        last = wire.Peer(port, LIMIT)
        last.shut()
        last.read_all()


def peers_that_leave_in_the_middle(program):
    """A whole call, of which ever more bytes come: then the input ends, or the connection does."""
    lengths = range(len(EMPTY_CALL) + 1)

    @served(program, len(lengths) + len(lengths[::4]))
    def _(port):
        for length in lengths:
            peer = wire.Peer(port, LIMIT)
            peer.send(EMPTY_CALL[:length])
            peer.shut()
            is_whole = length == len(EMPTY_CALL)
            want(ended(peer.read_all()) == ([1] if is_whole else []), f"{length} bytes are answered otherwise")
            peer.socket.close()
        for length in lengths[::4]:
            peer = wire.Peer(port, LIMIT)
            peer.send(EMPTY_CALL[:length])
            peer.abort()


def input_cut_at_many_bytes(program):
    """The same over memory, where the ending is told."""

    def one(length):
        words = [program, "parts"]
        ran = subprocess.run(words, input=EMPTY_CALL[:length].hex(), capture_output=True, text=True, timeout=LIMIT, check=False)
        want(ran.returncode == 0 and ran.stdout.endswith("ending 1\n"), f"{length} bytes end otherwise: {ran.stdout!r}")

    with ThreadPoolExecutor(2) as pool:
        list(pool.map(one, range(0, len(EMPTY_CALL) + 1, 3)))


def error_while_calls_wait(program):
    """A connection error while 64 calls wait at a shut window."""

    @served(program)
    def _(port):
        peer = wire.Peer(port, LIMIT)
        request = wire.message(wire.output_request(*[10_000] * 20))
        calls = [wire.open_call(it, "FullDuplexCall") + wire.data(it, request) for it in range(1, 2 * LIVE, 2)]
        peer.send(BEGIN, *calls, wire.ping())
        peer.read_until(wire.is_ping_answer)
        peer.send(wire.open_call(2, "EmptyCall"))
        frames = peer.read_all()
        want(frames[-1:] == [(wire.GOAWAY, 0, 0, struct.pack(">II", 2 * LIVE - 1, 1) + NO_STREAM)], "the last frame is no GOAWAY with 1")


def errors_behind_refused_streams(program):
    """A stream that is refused, behind calls: of no method, without the head of a call, one too many. GOAWAY for an error names it."""
    no_path = wire.frame(wire.HEADERS, wire.END_HEADERS | wire.END_STREAM, 3, b"\x83")
    ways = ((1, wire.open_call(3, "NoCall")), (1, no_path), (LIVE, wire.open_call(2 * LIVE + 1, "EmptyCall")))

    @served(program, len(ways))
    def _(port):
        for calls, refused in ways:
            peer = wire.Peer(port, LIMIT)
            peer.send(BEGIN, *[wire.open_call(it, "FullDuplexCall") for it in range(1, 2 * calls, 2)], refused, wire.ping())
            peer.read_until(wire.is_ping_answer)
            peer.send(wire.open_call(2, "EmptyCall"))
            frames, goaway = peer.read_all(), struct.pack(">II", 2 * calls + 1, 1) + NO_STREAM
            want(frames[-1:] == [(wire.GOAWAY, 0, 0, goaway)], f"the last frames are {frames[-3:]}, no GOAWAY with {goaway}")


def connection_that_the_writer_ends(program):
    """WINDOW_UPDATE takes the connection's window over 2^31 - 1, without calls and while 64 wait for messages. The peer sends nothing
    more, and doesn't close: behind GOAWAY the server closes the connection (RFC 9113, section 5.4.1)."""

    @served(program, 2)
    def _(port):
        peers = []
        for last in (0, 2 * LIVE - 1):
            peer = wire.Peer(port, LIMIT)
            peers.append(peer)
            peer.send(BEGIN, *[wire.open_call(it, "FullDuplexCall") for it in range(1, last + 1, 2)], wire.ping())
            peer.read_until(wire.is_ping_answer)
            peer.send(wire.credit(0, 0x7FFFFFFF))
            frames = peer.read_all()
            want(frames[-1:] == [(wire.GOAWAY, 0, 0, struct.pack(">II", last, 3) + WINDOW)], f"the last frames are {frames[-3:]}, no GOAWAY with 3")


def small_calls(streams):
    """Calls whose halves end at once. All but the first find their fields in the table (RFC 7541, section 2.3.2)."""
    fields = [(b"\x44", wire.SERVICE + "FullDuplexCall"), (b"\x40\x02te", "trailers"), (b"\x40\x0ccontent-type", "application/grpc")]
    first = b"".join(name + wire.integer(len(value), 7) + value.encode() for name, value in fields)
    blocks = [first, *[b"\xc0\xbf\xbe"] * (len(streams) - 1)]
    flags = wire.END_HEADERS | wire.END_STREAM
    return [wire.frame(wire.HEADERS, flags, stream, b"\x83\x86" + block) for stream, block in zip(streams, blocks)]


def orders_that_a_stopped_writer_drops(program):
    """The ring of orders is full as the first write fails, and again while the writer shuts the socket down: so orders are dropped, those
    of new calls among them, and all behind them. If a later one were put, it would name a call that the writer doesn't know."""
    streams = range(1, 2750, 2)
    calls = [call + wire.reset(stream) for stream, call in zip(streams, small_calls(streams))]

    def act(port):
        peer = wire.Peer(port, LIMIT)
        try:
            # A read takes more once one took all that it might.
            peer.send(wire.PREFACE, wire.settings() * 240)
            time.sleep(0.05)
            peer.send(wire.settings() * 3000, *calls)
            peer.read_all()
        except OSError:
            pass

    with tempfile.TemporaryDirectory() as folder:
        library = refusing.build(folder, "fail")
        for threads in range(12, 60, 8):
            served(program, LD_PRELOAD=library, FAIL_WRITES="1", SLOW_WRITES="200000", AWAIT_THREADS=str(threads))(act)


def a_crowd_leaves_four_threads(program):
    """Connections at once, to a server of all that come. Once they have ended, so have their threads, but those of the first four,
    which take the next ones too."""
    server = wire.Server(program, None)

    def threads():
        return len(os.listdir(f"/proc/{server.process.pid}/task"))

    try:
        left = threads() + STAYING
        for _ in range(3):
            peers = [wire.Peer(server.port, LIMIT) for _ in range(CROWD)]
            for peer in peers:
                peer.send(EMPTY_CALL)
            for peer in peers:
                peer.read_until(wire.ends_stream)
            want(threads() >= CROWD, f"{threads()} threads serve {CROWD} connections")
            for peer in peers:
                peer.shut()
                peer.read_all()
            end = time.monotonic() + END
            while threads() != left and time.monotonic() < end:
                time.sleep(0.01)
            want(threads() == left, f"{threads()} threads are left of them, not {left}")
    finally:
        server.close()


ATTEMPTS = [
    idle_workers_at_the_end,
    silent_calls_at_the_end,
    calls_while_the_connection_breaks,
    peers_that_leave_in_the_middle,
    input_cut_at_many_bytes,
    error_while_calls_wait,
    errors_behind_refused_streams,
    connection_that_the_writer_ends,
    orders_that_a_stopped_writer_drops,
    a_crowd_leaves_four_threads,
]
