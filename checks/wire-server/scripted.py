"""Servers that announce something and find errors by it, and one that does right at times.

Each is a function that serves a connection. `WANTED` has, of cases, the verdict against one of them.
"""
import itertools
import struct

import wire

HEADER_TABLE_SIZE, MAX_CONCURRENT_STREAMS, MAX_FRAME_SIZE, MAX_HEADER_LIST_SIZE = 1, 3, 5, 6
PROTOCOL_ERROR, FLOW_CONTROL_ERROR, FRAME_SIZE_ERROR, REFUSED_STREAM = 1, 3, 6, 7
# Of the connections of `FailsOnce`.
NUMBERS = itertools.count()
# A status of gRPC in one block.
ANSWER = b"".join(wire.literal(*it) for it in [(":status", "200"), ("content-type", "application/grpc"), ("grpc-status", "0")])


class Server:
    """A server over one connection: it acknowledges SETTINGS and PING, and answers calls as they end. `frame_found` looks at each
    frame, and may end the connection by an error that it answers."""

    announces = []

    def __init__(self, device):
        self.device = device
        self.rest = b""
        self.streams = set()

    def frame_found(self, kind, flags, stream, length):
        """The error of the connection that this frame is, if it is one."""

    def write(self, *frames):
        self.device.sendall(b"".join(frames))

    def read(self, count):
        while len(self.rest) < count:
            came = self.device.recv(65_536)
            if not came:
                raise ConnectionError
            self.rest += came
        found, self.rest = self.rest[:count], self.rest[count:]
        return found

    def serve(self):
        self.write(wire.settings(*self.announces))
        self.read(len(wire.PREFACE))
        while True:
            head = self.read(9)
            kind, flags, length = head[3], head[4], int.from_bytes(head[:3], "big")
            stream = int.from_bytes(head[5:], "big") & 0x7FFFFFFF
            error = self.frame_found(kind, flags, stream, length)
            if error is not None:
                self.write(wire.frame(wire.GOAWAY, 0, 0, struct.pack(">II", 0, error)))
                return
            self.take(kind, flags, stream, self.read(length))

    def take(self, kind, flags, stream, content):
        if kind in (wire.SETTINGS, wire.PING) and not flags & wire.ACK:
            self.write(wire.frame(kind, wire.ACK, 0, content if kind == wire.PING else b""))
        if kind in (wire.DATA, wire.HEADERS) and flags & wire.END_STREAM:
            self.answer(stream)

    def answer(self, stream):
        self.write(wire.frame(wire.HEADERS, wire.END_HEADERS | wire.END_STREAM, stream, ANSWER))


def server(kind):
    """The function that serves a connection so."""

    def serve(device):
        with device:
            try:
                kind(device).serve()
            except OSError:
                pass

    serve.__name__ = kind.__name__
    return serve


@server
class FramesOf20000(Server):
    """It takes frames of up to 20,000 bytes, and no larger ones."""

    announces = [(MAX_FRAME_SIZE, 20_000)]

    def frame_found(self, kind, flags, stream, length):
        return FRAME_SIZE_ERROR if length > 20_000 else None


@server
class FramesOfAnyLength(Server):
    """It announces frames of 20,000 bytes and takes larger ones too."""

    announces = [(MAX_FRAME_SIZE, 20_000)]


@server
class TheGreatestFrames(Server):
    """No frame is over its SETTINGS_MAX_FRAME_SIZE."""

    announces = [(MAX_FRAME_SIZE, 16_777_215)]


@server
class NoTable(Server):
    """Its table has no bytes: so its client has to say first."""

    announces = [(HEADER_TABLE_SIZE, 0)]

    def take(self, kind, flags, stream, content):
        if kind == wire.HEADERS and stream not in self.streams:
            if not self.streams and not content.startswith(b"\x20"):
                self.write(wire.frame(wire.GOAWAY, 0, 0, struct.pack(">II", 0, 9)))
                raise ConnectionError
            self.streams.add(stream)
        super().take(kind, flags, stream, content)


@server
class NoLimit(Server):
    """It announces no limit of streams."""


@server
class TwoStreams(Server):
    """It allows two streams, and refuses a third."""

    announces = [(MAX_CONCURRENT_STREAMS, 2)]

    def take(self, kind, flags, stream, content):
        if kind == wire.HEADERS and stream not in self.streams:
            self.streams.add(stream)
            if len(self.streams) > 2:
                self.write(wire.reset(stream, REFUSED_STREAM))
        super().take(kind, flags, stream, content)


@server
class NoWindow(Server):
    """No DATA has room in its streams' windows, and it never gives credit."""

    announces = [(wire.INITIAL_WINDOW, 0)]


@server
class ShortFields(Server):
    """It takes few fields."""

    announces = [(MAX_HEADER_LIST_SIZE, 1_000)]


@server
class FailsOnce(Server):
    """Its first connection, and then every second one, doesn't answer PING."""

    def __init__(self, device):
        super().__init__(device)
        self.is_deaf = next(NUMBERS) % 2 == 0

    def take(self, kind, flags, stream, content):
        if kind != wire.PING or not self.is_deaf:
            super().take(kind, flags, stream, content)


WANTED = [
    ("conn/43", FramesOf20000, "ok"),
    ("conn/45", FramesOf20000, "ok"),
    ("conn/47", FramesOf20000, "ok"),
    ("conn/42", FramesOf20000, "ok"),
    ("conn/43", FramesOfAnyLength, "failed"),
    ("conn/45", FramesOfAnyLength, "failed"),
    ("conn/46", FramesOfAnyLength, "failed"),
    ("conn/47", FramesOfAnyLength, "ok"),
    ("conn/42", FramesOfAnyLength, "failed"),
    ("conn/43", TheGreatestFrames, "not applicable"),
    ("conn/42", TheGreatestFrames, "not applicable"),
    ("start/9", TheGreatestFrames, "not applicable"),
    ("stream/11", NoTable, "ok"),
    ("hpack/7", NoTable, "not applicable"),
    ("stream/40", NoLimit, "not applicable"),
    ("stream/40", TwoStreams, "ok"),
    ("grpc/15", TwoStreams, "not applicable"),
    ("stream/11", NoWindow, "not applicable"),
    ("grpc/52", ShortFields, "not applicable"),
    ("control/21", FailsOnce, "unsteady"),
]
