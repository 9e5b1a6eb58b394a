"""Attempts of checks/hangs: threads that are to be woken: for a message, for credit, for orders, for a call that was left."""
import os
import struct
import subprocess
import tempfile
import time
from concurrent.futures import ThreadPoolExecutor

import refusing
import wire
from common import BEGIN, EMPTY_CALL, FAILING, LIMIT, SLOWER, WIDE, served
from wants import want


def no_ring_is_lost(program):
    """Turns of one message each way. A thread that isn't rung sleeps for a second, or for an hour."""

    @served(program)
    def _(port):
        peer = wire.Peer(port, LIMIT)
        peer.send(BEGIN, wire.open_call(1, "FullDuplexCall"))
        request = wire.data(1, wire.message(wire.output_request(1)))
        wanted = len(wire.message(wire.response(1)))
        start, turns = time.monotonic(), 1000
        for _ in range(turns):
            peer.send(request)
            came = 0
            while came < wanted:
                kind, _flags, _stream, content = peer.next() or (None, 0, 0, b"")
                want(kind is not None, "the server ended the connection")
                came += len(content) if kind == wire.DATA else 0
            peer.send(wire.credit(0, wanted), wire.credit(1, wanted))
        spent = time.monotonic() - start
        want(spent < 8 * SLOWER, f"{turns} turns took {spent:.1f} s")
        peer.send(wire.data(1, end=True))
        peer.read_until(wire.ends_stream)
        peer.shut()
        peer.read_all()


def credit_comes_back(program):
    """A request of 4 MB, which waits for credit at each window, in frames with padding among them."""

    @served(program)
    def _(port):
        peer = wire.Peer(port, LIMIT)
        peer.send(BEGIN, wire.open_call(1, "StreamingInputCall"))
        body = wire.bytes_field(1, wire.bytes_field(2, bytes(4_000_000)))
        left, windows, turn = wire.message(body), {0: wire.WINDOW, 1: wire.WINDOW}, 0
        while left:
            room = min(wire.LARGEST - 256, *windows.values())
            if room <= 256:
                kind, _flags, stream, content = peer.next() or (None, 0, 0, b"")
                want(kind is not None, "the server ended the connection")
                if kind == wire.WINDOW_UPDATE:
                    windows[stream] += int.from_bytes(content, "big")
                continue
            padding = turn % 3 * 100
            turn += 1
            piece, left = left[:room - 256], left[room - 256:]
            padded = bytes([padding]) + piece + bytes(padding)
            peer.send(wire.frame(wire.DATA, wire.PADDED, 1, padded))
            windows = {stream: window - len(padded) for stream, window in windows.items()}
        peer.send(wire.data(1, end=True))
        frames = peer.read_until(wire.ends_stream)
        joined = b"".join(content for kind, _, _, content in frames if kind == wire.DATA)
        want(joined == wire.message(wire.number_field(1, 4_000_000)), "the sum is another")
        peer.shut()
        peer.read_all()


def credit_of_first_windows(program):
    """Calls of 8,000 connections, each of which has its preface, its call and all that the window lets through in one write: so a worker may
    have taken that before the writer has opened the stream. The credit comes all the same. (Of a server that granted it too early one
    in 30,000 had none: the row `credit_before_its_stream_is_open` of `serial_rows` has that order of steps.)"""
    count, peers = 8000, 8
    request = wire.message(wire.bytes_field(1, wire.bytes_field(2, bytes(wire.WINDOW))))[:wire.WINDOW]
    pieces = [request[at:at + wire.LARGEST] for at in range(0, wire.WINDOW, wire.LARGEST)]
    begin = BEGIN + wire.open_call(1, "StreamingInputCall") + b"".join(wire.data(1, piece) for piece in pieces)

    @served(program, count)
    def _(port):
        def call_again(_number):
            for _ in range(count // peers):
                peer = wire.Peer(port, LIMIT)
                peer.send(begin)
                peer.read_until(lambda kind, _flags, on, _content: kind == wire.WINDOW_UPDATE and on == 1)
                peer.shut()
                peer.read_all()

        with ThreadPoolExecutor(peers) as pool:
            list(pool.map(call_again, range(peers)))


def credit_of_what_no_call_takes(program):
    """DATA of all that the connection's window lets through, in one write, on a stream whose call takes none: of no method, of a call
    that was answered, and of one that was reset. The credit comes back at once. A writer that isn't rung looks again after a second."""
    ways = (
        (lambda it: wire.open_call(it, "NoCall"), 0, wire.ends_stream),
        (lambda it: wire.open_call(it, "FullDuplexCall") + wire.data(it, FAILING), len(FAILING), wire.ends_stream),
        (lambda it: wire.open_call(it, "FullDuplexCall") + wire.reset(it) + wire.ping(), 0, wire.is_ping_answer),
    )

    @served(program)
    def _(port):
        peer = wire.Peer(port, LIMIT)
        peer.send(BEGIN)
        room, spent = wire.WINDOW, 0.0
        for turn, (begin, length, is_there) in enumerate(ways * 4):
            stream = 2 * turn + 1
            peer.send(begin(stream))
            peer.read_until(is_there)
            room -= length
            pieces = [min(wire.LARGEST, room - at) for at in range(0, room, wire.LARGEST)]
            start = time.monotonic()
            peer.send(b"".join(wire.data(stream, bytes(piece)) for piece in pieces))
            room = 0
            while room < wire.LARGEST:
                *_, (*_, content) = peer.read_until(lambda kind, _flags, on, _content: kind == wire.WINDOW_UPDATE and on == 0)
                room += int.from_bytes(content, "big")
            spent += time.monotonic() - start
        want(spent < 2 * SLOWER, f"{turn + 1} windows took {spent:.1f} s")
        peer.shut()
        peer.read_all()


def many_orders_over_memory(program):
    """More orders in one read than the ring has room for, over memory."""
    orders = b"".join([wire.credit(0, 1)] * 20_000 + [wire.ping(number) for number in range(5000)])
    text = (BEGIN + orders + EMPTY_CALL[len(BEGIN):]).hex()
    ran = subprocess.run([program, "parts"], input=text, capture_output=True, text=True, timeout=LIMIT, check=False)
    want(ran.returncode == 0 and ran.stdout.count("ping ack ") == 5000 and "grpc-status: 0" in ran.stdout, "it is answered otherwise")


def with_a_left_call(program, begin, goes_on):
    """Another call begins, and its replies come, each write later than the one before. Then a call whose worker has no memory for an
    answer is left: its stream is reset with INTERNAL_ERROR, while the other goes on."""
    with tempfile.TemporaryDirectory() as folder:
        refused = os.path.join(folder, "refused")
        libraries = " ".join(refusing.build(folder, name) for name in ("refuse", "fail"))

        @served(program, LD_PRELOAD=libraries, NEW_THREADS=refused, SLOW_WRITES="50000")
        def _(port):
            peer = wire.Peer(port, LIMIT)
            peer.send(WIDE, *begin)
            peer.read_until(lambda kind, *_: kind == wire.DATA)
            with open(refused, "x", encoding="ascii"):
                peer.send(wire.open_call(3, "EmptyCall", end=True))
            start, stream = time.monotonic(), 1
            while stream != 3:
                want(time.monotonic() - start < 5 * SLOWER, "the call that was left was not reset within 5 s")
                kind, _flags, stream, content = peer.next() or (None, 0, 0, b"")
                want(kind is not None, "the server ended the connection")
                if (kind, stream) == (wire.DATA, 1):
                    goes_on(peer, content)
            os.remove(refused)
            want((kind, content) == (wire.RST_STREAM, struct.pack(">I", 2)), f"frame {kind} came for the call, {content!r}")
            peer.send(wire.reset(1))
            peer.shut()
            peer.read_all()


def left_call_beside_one_that_goes_on(program):
    """The other goes to and fro: behind each write an order waits, and there is something to write."""
    request = wire.data(1, wire.message(wire.output_request(1)))

    def goes_on(peer, content):
        peer.send(request, wire.credit(0, len(content)), wire.credit(1, len(content)))

    with_a_left_call(program, (wire.open_call(1, "FullDuplexCall"), request * 8), goes_on)


def left_call_beside_one_that_fills_the_buffer(program):
    """The other has more replies at each write than the buffer takes."""
    request = wire.data(1, wire.message(wire.output_request(*[1 << 20] * 40)))
    with_a_left_call(program, (wire.open_call(1, "FullDuplexCall"), request), lambda _peer, _content: None)


ATTEMPTS = [
    no_ring_is_lost,
    credit_comes_back,
    credit_of_first_windows,
    credit_of_what_no_call_takes,
    many_orders_over_memory,
    left_call_beside_one_that_goes_on,
    left_call_beside_one_that_fills_the_buffer,
]
