"""Attempts of checks/hangs: whether each worker is free for its next call."""
import os
import struct
import tempfile
import threading
import time

import refusing
import wire
from common import BEGIN, FAILING, LIMIT, LIVE, all_over, data_length, ended, resets, served
from wants import want

STREAMS = 4096


def resets_and_opens_in_one_read(program):
    """All workers at calls that are reset, and as many new calls in the same bytes."""

    @served(program)
    def _(port):
        peer = wire.Peer(port, LIMIT)
        peer.send(BEGIN)
        for turn in range(20):
            first = range(turn * 4 * LIVE + 1, turn * 4 * LIVE + 2 * LIVE, 2)
            second = [stream + 2 * LIVE for stream in first]
            peer.send(*[wire.open_call(stream, "FullDuplexCall") for stream in first], wire.ping())
            peer.read_until(wire.is_ping_answer)
            opens = [wire.open_call(it, "EmptyCall") + wire.data(it, wire.message(), end=True) for it in second]
            peer.send(b"".join([*map(wire.reset, first), *opens]))
            waiting = set(second)
            while waiting:
                kind, flags, stream, content = peer.next() or (None, 0, 0, b"")
                want(kind is not None, "the server ended the connection")
                want(kind != wire.RST_STREAM, f"stream {stream} was reset")
                # The trailers of a call that was reset may have been on their way.
                if wire.ends_stream(kind, flags, stream, content) and stream not in first:
                    waiting.remove(stream)
        peer.shut()
        peer.read_all()


def resets_of_calls_with_replies_that_wait(program):
    """Calls whose replies wait at shut windows, reset by 64, and as many new ones in the same bytes: what was given is sent no more."""
    request = wire.message(wire.output_request(*[1000] * 40))

    @served(program)
    def _(port):
        peer = wire.Peer(port, LIMIT)
        peer.send(wire.PREFACE, wire.settings((wire.INITIAL_WINDOW, 0)))
        before = []
        for turn in range(20):
            streams = range(turn * 2 * LIVE + 1, (turn + 1) * 2 * LIVE, 2)
            opens = [wire.open_call(it, "FullDuplexCall") + wire.data(it, request, end=it % 4 == 1) for it in streams]
            peer.send(*map(wire.reset, before), *opens, wire.ping())
            frames = peer.read_until(wire.is_ping_answer)
            want(not any(kind == wire.RST_STREAM for kind, *_ in frames), "a call was reset")
            before = streams
        last = 20 * 2 * LIVE + 1
        peer.send(*map(wire.reset, before), wire.open_call(last, "EmptyCall"), wire.data(last, wire.message(), end=True))
        peer.send(wire.credit(last, 100))
        frames = peer.read_until(lambda *frame: wire.ends_stream(*frame) and frame[2] == last)
        want(any(kind == wire.DATA and stream == last for kind, _, stream, _ in frames), "the last call has no reply")
        peer.shut()
        peer.read_all()


def streams_that_the_server_resets(program):
    """WINDOW_UPDATE takes the windows of 64 calls that wait for messages over 2^31 - 1: the server resets their streams (RFC 9113,
    section 6.9.1), and their workers are free for the next calls."""

    @served(program)
    def _(port):
        peer = wire.Peer(port, LIMIT)
        for first in (1, 2 * LIVE + 1):
            streams = range(first, first + 2 * LIVE, 2)
            peer.send(BEGIN if first == 1 else b"", *[wire.open_call(it, "FullDuplexCall") for it in streams], wire.ping())
            peer.read_until(wire.is_ping_answer)
            # So that each worker waits for its call's first message.
            time.sleep(0.2)
            peer.send(*[wire.credit(it, 0x7FFFFFFF) for it in streams], wire.ping())
            frames = peer.read_until(wire.is_ping_answer)
            want(sorted(resets(frames)) == [(it, 3) for it in streams], f"RST_STREAM were {resets(frames)}")
        last = 4 * LIVE + 1
        peer.send(wire.open_call(last, "EmptyCall"), wire.data(last, wire.message(), end=True), wire.ping())
        frames = peer.read_until(wire.ends_stream)
        want(ended(frames) == [last], f"{ended(frames)} were ended")
        if not any(wire.is_ping_answer(*frame) for frame in frames):
            peer.read_until(wire.is_ping_answer)
        peer.shut()
        peer.read_all()


def answers_before_the_half_ends(program):
    """Calls that end with a status while their halves are open, more than there are workers. Their DATA go on, and their ends come late."""

    @served(program)
    def _(port):
        peer = wire.Peer(port, LIMIT)
        peer.send(BEGIN)
        late, stream = [], 1
        for turn in range(10 * LIVE):
            peer.send(wire.open_call(stream, "FullDuplexCall"), wire.data(stream, FAILING))
            frames = peer.read_until(wire.ends_stream)
            want(ended(frames) == [stream], f"{ended(frames)} were ended, not {stream}")
            late.append(stream)
            stream += 2
            if len(late) == LIVE - 1:
                more = [wire.data(it, wire.message(bytes(100))) for it in late]
                peer.send(*more, *[wire.data(it, end=True) if it % 4 == 1 else wire.reset(it) for it in late])
                late = []
                peer.send(wire.open_call(stream, "EmptyCall"), wire.data(stream, wire.message(), end=True))
                want(ended(peer.read_until(wire.ends_stream)) == [stream], "another call was ended")
                stream += 2
        peer.shut()
        peer.read_all()


def more_on_calls_that_were_answered(program):
    """64 calls that end with a status while their halves are open: they stay live, so one more is refused. Their DATA go on, and the input
    ends: none of them is reset."""

    @served(program)
    def _(port):
        peer = wire.Peer(port, LIMIT)
        streams, last = range(1, 2 * LIVE, 2), 2 * LIVE + 1
        peer.send(BEGIN, *[wire.open_call(it, "FullDuplexCall") + wire.data(it, FAILING) for it in streams])
        frames = []
        for _ in streams:
            frames += peer.read_until(wire.ends_stream)
        peer.send(wire.open_call(last, "EmptyCall", end=True), *[wire.data(it, bytes(100)) for it in streams], wire.ping())
        frames += peer.read_until(wire.is_ping_answer)
        peer.shut()
        frames += peer.read_all()
        want(sorted(ended(frames)) == [*streams], f"{ended(frames)} were ended")
        want(resets(frames) == [(last, 7)], f"RST_STREAM were {resets(frames)}")


def resets_in_a_loop(program):
    """A peer that opens and resets calls as fast as it can, and past the last stream that it may open."""

    @served(program)
    def _(port):
        peer = wire.Peer(port, LIMIT)
        peer.send(BEGIN)
        streams = range(1, 2 * (STREAMS + 100), 2)
        calls = [wire.open_call(stream, "FullDuplexCall") + wire.reset(stream) for stream in streams]
        sending = threading.Thread(target=peer.send, args=[*calls, wire.ping(7)])
        sending.start()
        frames = peer.read_until(wire.is_ping_answer)
        sending.join()
        goaways = [content for kind, _, _, content in frames if kind == wire.GOAWAY]
        want(goaways == [struct.pack(">II", 2 * STREAMS - 1, 0)], f"GOAWAY was {goaways}")
        peer.shut()
        peer.read_all()


def calls_to_the_last_stream(program):
    """As many short calls as a client may open streams, 32 at once: each is answered, GOAWAY without an error names the last, and the
    connection goes on. The call above it is dropped."""

    @served(program)
    def _(port):
        peer = wire.Peer(port, LIMIT)
        peer.send(BEGIN)
        frames = []
        for first in range(1, 2 * STREAMS, LIVE):
            streams = range(first, first + LIVE, 2)
            peer.send(*[wire.open_call(it, "EmptyCall") + wire.data(it, wire.message(), end=True) for it in streams])
            for _ in streams:
                frames += peer.read_until(wire.ends_stream)
            want(sorted(ended(frames))[-len(streams):] == [*streams], f"not all calls from {first} on are answered")
        peer.send(wire.open_call(2 * STREAMS + 1, "EmptyCall"), wire.data(2 * STREAMS + 1, wire.message(), end=True), wire.ping())
        frames += peer.read_until(wire.is_ping_answer)
        peer.shut()
        frames += peer.read_all()
        want(len(ended(frames)) == STREAMS, f"{len(ended(frames))} calls are answered")
        want(data_length(frames) == STREAMS * len(wire.message()), "bytes of the replies are missing")
        want(not any(kind == wire.RST_STREAM for kind, *_ in frames), "a call was reset")
        goaways = [content for kind, _, _, content in frames if kind == wire.GOAWAY]
        want(goaways == [struct.pack(">II", 2 * STREAMS - 1, 0)], f"GOAWAY was {goaways}")


def all_workers_behind_each_end(program):
    """64 calls at once, each with its reply, again and again: behind calls that were left without memory, that ended, that their client
    reset, and whose windows the client took over 2^31 - 1, which resets them."""
    request = wire.message(wire.output_request(1))
    ways = ((lambda it: wire.data(it, end=True), True), (wire.reset, False), (lambda it: wire.credit(it, 0x7FFFFFFF), True))
    with tempfile.TemporaryDirectory() as folder:
        refused = os.path.join(folder, "refused")

        @served(program, LD_PRELOAD=refusing.build(folder, "refuse"), NEW_THREADS=refused)
        def _(port):
            peer = wire.Peer(port, LIMIT)
            peer.send(BEGIN, wire.ping())
            peer.read_until(wire.is_ping_answer)
            streams = range(1, 2 * LIVE, 2)
            with open(refused, "x", encoding="ascii"):
                peer.send(*[wire.open_call(it, "FullDuplexCall", end=True) for it in streams])
            left = resets(all_over(peer, streams))
            os.remove(refused)
            want(left and all(code == 2 for _, code in left), f"RST_STREAM were {left}")
            for end, is_told in ways * 2:
                streams = range(streams[-1] + 2, streams[-1] + 2 + 2 * LIVE, 2)
                peer.send(*[wire.open_call(it, "FullDuplexCall") + wire.data(it, request) for it in streams])
                waiting = {*streams}
                while waiting:
                    kind, _flags, stream, content = peer.read_until(lambda kind, *_: kind in (wire.DATA, wire.RST_STREAM))[-1]
                    want(kind == wire.DATA or stream not in waiting, f"stream {stream} was reset with {content}")
                    waiting.discard(stream)
                peer.send(*map(end, streams))
                if is_told:
                    all_over(peer, streams)
            peer.shut()
            peer.read_all()


ATTEMPTS = [
    resets_and_opens_in_one_read,
    resets_of_calls_with_replies_that_wait,
    streams_that_the_server_resets,
    answers_before_the_half_ends,
    more_on_calls_that_were_answered,
    resets_in_a_loop,
    calls_to_the_last_stream,
    all_workers_behind_each_end,
]
