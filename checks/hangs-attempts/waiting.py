"""Attempts of checks/hangs: calls that wait: for a peer that reads nothing, for a window, for one another."""
import socket
import threading
import time

import wire
from common import BEGIN, LIMIT, LIVE, SLOWER, WIDE, data_length, ended, many_replies, served
from wants import want


def block_the_writer(port):
    """A peer that reads nothing of the 5 MB that it asked for, and 20,000 orders to the writer, of which 1,260 fit into one read."""
    peer = wire.Peer(port, LIMIT, receive_buffer=4096)
    request = wire.message(wire.output_request(*[500_000] * 10))
    peer.send(WIDE, wire.open_call(1, "StreamingOutputCall"), wire.data(1, request, end=True))
    time.sleep(0.2)
    orders = threading.Thread(target=peer.send, args=[wire.ping(number) for number in range(20_000)])
    orders.start()
    time.sleep(0.2)
    return peer, orders


def orders_while_nothing_is_read(program):
    """The ring of orders is full, and the writer waits for the peer, which reads at last: all comes."""

    @served(program)
    def _(port):
        peer, orders = block_the_writer(port)
        peer.socket.setsockopt(socket.SOL_SOCKET, socket.SO_RCVBUF, 1 << 20)
        frames = []
        is_open, pings = True, 0
        while is_open or pings < 20_000:
            kind, flags, stream, content = peer.next() or (None, 0, 0, b"")
            want(kind is not None, "the server ended the connection")
            if wire.is_ping_answer(kind, flags, stream, content):
                want(int.from_bytes(content, "big") == pings, "a PING was answered out of turn")
                pings += 1
            elif kind in (wire.DATA, wire.HEADERS):
                is_open = is_open and not wire.ends_stream(kind, flags, stream, content)
                frames.append((kind, flags, stream, content))
        orders.join()
        want(data_length(frames) == 10 * len(wire.message(wire.response(500_000))), "bytes of the replies are missing")
        peer.shut()
        want(not peer.read_all(), "more came behind the trailers")


def orders_and_the_peer_leaves(program):
    """The same, but the peer never reads, and ends the connection."""

    @served(program)
    def _(port):
        peer, orders = block_the_writer(port)
        peer.abort()
        try:
            orders.join()
        except OSError:
            pass


def input_ends_at_a_shut_window(program):
    """Calls that wait for a window that can't open any more: one, and 64."""
    request = wire.message(wire.output_request(*[1000] * 100))
    for method, end in (("StreamingOutputCall", True), ("FullDuplexCall", True), ("FullDuplexCall", False)):
        for calls in (1, LIVE):
            streams = range(1, 2 * calls, 2)

            @served(program)
            def _(port):
                peer = wire.Peer(port, LIMIT)
                peer.send(BEGIN, *[wire.open_call(stream, method) + wire.data(stream, request, end) for stream in streams])
                peer.shut()
                frames = peer.read_all()
                came = data_length(frames)
                # At the end of the input a call is reset whose half is open.
                want(came == wire.WINDOW or (not end and came <= wire.WINDOW), f"{came} bytes came through the window")
                want(not ended(frames) or calls > 1, "trailers came past what the window held back")


def no_call_waits_for_another(program):
    """A call of which a byte lacks, and 62 at windows that are shut: another comes to its end beside them."""

    @served(program)
    def _(port):
        peer = wire.Peer(port, LIMIT)
        held = range(5, 2 * LIVE, 2)
        request = wire.message(wire.output_request(1000))
        sums = b"".join(wire.data(3, bytes([byte])) for byte in wire.message(wire.bytes_field(1, wire.bytes_field(2, b"123"))))
        peer.send(wire.PREFACE, wire.settings((wire.INITIAL_WINDOW, 0)), wire.open_call(1, "EmptyCall"), wire.data(1, bytes(4)))
        peer.send(wire.open_call(3, "StreamingInputCall"))
        peer.send(*[wire.open_call(stream, "StreamingOutputCall") + wire.data(stream, request, end=True) for stream in held])
        peer.send(wire.credit(1, 5), wire.credit(3, 7), sums, wire.data(3, end=True))
        frames = peer.read_until(wire.ends_stream)
        want(ended(frames) == [3], f"{ended(frames)} were ended")
        joined = b"".join(content for kind, _, _, content in frames if kind == wire.DATA)
        want(joined == bytes.fromhex("00000000020803"), "the sum is another")
        peer.send(wire.data(1, bytes(1), end=True))
        want(ended(peer.read_until(wire.ends_stream)) == [1], "another call was ended")
        peer.send(*[wire.credit(stream, 2000) for stream in held])
        waiting = set(held)
        while waiting:
            kind, flags, stream, content = peer.next() or (None, 0, 0, b"")
            want(kind is not None, "the server ended the connection")
            if wire.ends_stream(kind, flags, stream, content):
                waiting.remove(stream)
        peer.shut()
        peer.read_all()


def windows_that_open_one_by_one(program):
    """64 calls with far more replies than may wait, at windows that are shut. One after another opens, and its call comes to its end
    while the others wait: a worker that isn't rung for the room of its call sleeps on."""
    request, length = many_replies(200, 100)

    @served(program)
    def _(port):
        peer = wire.Peer(port, LIMIT)
        streams = range(1, 2 * LIVE, 2)
        peer.send(wire.PREFACE, wire.settings((wire.INITIAL_WINDOW, 0)), wire.credit(0, LIVE * length))
        peer.send(*[wire.open_call(it, "FullDuplexCall") + wire.data(it, request, end=True) for it in streams], wire.ping())
        peer.read_until(wire.is_ping_answer)
        # So that each worker waits for room.
        time.sleep(0.5)
        start = time.monotonic()
        for stream in streams:
            peer.send(wire.credit(stream, length))
            frames = peer.read_until(wire.ends_stream)
            want(ended(frames) == [stream], f"{ended(frames)} were ended, not {stream}")
            want(data_length(frames) == length, "bytes of the replies are missing")
        spent = time.monotonic() - start
        want(spent < 5 * SLOWER, f"{LIVE} calls took {spent:.1f} s")
        peer.shut()
        peer.read_all()


def deadlines_while_calls_wait_for_room(program):
    """The same, but their deadlines come. Once the windows open each is ended, behind the few replies that waited."""
    request, length = many_replies(200, 100)

    @served(program)
    def _(port):
        peer = wire.Peer(port, LIMIT)
        streams = range(1, 2 * LIVE, 2)
        timeout = ("grpc-timeout", "300m")
        peer.send(wire.PREFACE, wire.settings((wire.INITIAL_WINDOW, 0)), wire.credit(0, LIVE * length))
        peer.send(*[wire.open_call(it, "FullDuplexCall", timeout) + wire.data(it, request) for it in streams])
        time.sleep(0.6 * SLOWER)
        peer.send(*[wire.credit(it, length) for it in streams])
        frames = []
        for _ in streams:
            frames += peer.read_until(wire.ends_stream)
        want(sorted(ended(frames)) == [*streams], f"{ended(frames)} were ended")
        want(data_length(frames) < LIVE * length // 4, f"{data_length(frames)} bytes of replies came past the deadlines")
        peer.shut()
        peer.read_all()


def replies_that_nobody_reads(program):
    """64 calls for more replies than the sockets hold, whose client reads nothing. It reads them at last; or it leaves, by the end of
    its output or by a TCP reset, where its halves are ended and where they are open."""
    request, length = many_replies(100, 5000)
    ways = [("read", True), ("shut", True), ("shut", False), ("abort", True), ("abort", False)]

    @served(program, len(ways))
    def _(port):
        for way, end in ways:
            peer = wire.Peer(port, LIMIT, receive_buffer=4096)
            streams = range(1, 2 * LIVE, 2)
            peer.send(WIDE, *[wire.open_call(it, "FullDuplexCall") + wire.data(it, request, end) for it in streams])
            time.sleep(0.5)
            if way == "abort":
                peer.abort()
                continue
            if way == "shut":
                peer.shut()
            peer.socket.setsockopt(socket.SOL_SOCKET, socket.SO_RCVBUF, 1 << 20)
            frames = []
            if end:
                for _ in streams:
                    frames += peer.read_until(wire.ends_stream)
                want(data_length(frames) == LIVE * length, "bytes of the replies are missing")
            if way == "read":
                peer.shut()
            peer.read_all()


ATTEMPTS = [
    orders_while_nothing_is_read,
    orders_and_the_peer_leaves,
    input_ends_at_a_shut_window,
    no_call_waits_for_another,
    windows_that_open_one_by_one,
    deadlines_while_calls_wait_for_room,
    replies_that_nobody_reads,
]
