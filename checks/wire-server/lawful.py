"""Servers that react otherwise than `interop serve` does, and lawfully: what `lawful.txt` names.

`listen(port, play, place)` answers the port of a server that does what the right server at `port` does, but for this play. It stands
in the place of the first error that the right server tells, or behind the frame of a client that `place` names. `manner(port, name)`
answers the port of one that does everything in another manner. They need the Debian package python3-hpack.
"""
import itertools
import os
import re
import socket
import struct
import threading

import wire
import wrong

HERE = os.path.dirname(os.path.abspath(__file__))
GRPC = [(":status", "200"), ("content-type", "application/grpc")]
RESPONSE_OF_HTTP = b"HTTP/1.1 400 Bad Request\r\ncontent-length: 0\r\n\r\n"


def cases_of(text):
    """The names of cases that stand as GROUP/N,N-N and so on, with blanks between them."""
    for word in text.split():
        group, numbers = word.split("/")
        for part in numbers.split(","):
            first, _, last = part.partition("-")
            for number in range(int(first), int(last or first) + 1):
                yield f"{group}/{number}"


def lines_of_table():
    with open(os.path.join(HERE, "lawful.txt"), encoding="utf-8") as file:
        return [line.strip() for line in file if line.strip() and line[0] != "#"]


def table():
    """The plays of lawful.txt: a case, a play, and where it stands, None for the place of an error."""
    for line in lines_of_table():
        head, _, plays = line.partition(": ")
        word, cases, *place = head.split(" ")
        assert word in (("on", "later") if place else ("error",) if plays else ("right", "open")), line
        for case in cases_of(cases):
            for play in plays.split(", ") if plays else []:
                yield case, play, Place(word == "later", *place) if place else None


def named(*words):
    """The cases of the rows with these words, or of all rows."""
    for line in lines_of_table():
        word, cases = line.partition(": ")[0].split(" ")[:2]
        if word in words or not words:
            yield from cases_of(cases)


class Place:
    """The frame of a client behind which a play stands: its type, its stream, and how many such frames come up to it. Where it is
    `later`, that of each connection but the first."""

    def __init__(self, later, kind, stream, times):
        self.later, self.kind, self.stream, self.times = later, int(kind), int(stream), int(times)

    def is_of(self, frame):
        return frame[0] == self.kind and frame[2] == self.stream


class Play(wrong.Wrong):
    """One play, over one connection."""

    def __init__(self, client, play, place):
        super().__init__(client)
        self.name, self.place = play, place
        self.seen = 0
        self.last = 1
        # Streams on which the play was, and PINGs that weren't answered; whether the right server is heard no more, and whether
        # the play was.
        self.over = set()
        self.pings = []
        self.alone = False
        self.done = False

    def from_client(self, frame):
        kind, flags, stream, content = frame
        self.last = stream or self.last
        if kind == wire.PING and not flags & wire.ACK:
            self.pings.append(content[:8].ljust(8, b"\0"))
            self.answer_alone()
        if self.place and not self.done and self.place.is_of(frame):
            self.seen += 1
            if self.seen == self.place.times:
                self.play(stream or self.last)

    def from_server(self, frame):
        kind, flags, stream, content = frame
        fields = self.fields(frame) if kind == wire.HEADERS else []
        if kind == wire.HEADERS:
            frame = self.spelled(frame, fields)
        if self.name == "http" and not self.done:
            if kind == wire.GOAWAY:
                self.play(stream)
            return []
        if self.alone or stream in self.over:
            return []
        if kind == wire.PING and content in self.pings:
            self.pings.remove(content)
        if self.place is None and not self.done and self.is_error(kind, flags, content, fields):
            self.alone = kind == wire.GOAWAY
            self.play(stream or self.last)
            return []
        if kind == wire.GOAWAY and self.done:
            self.alone = True
            self.answer_alone()
            return []
        return [frame]

    def answer_alone(self):
        """Answers the PINGs that the right server leaves unanswered."""
        while self.alone and self.pings:
            self.write(wire.frame(wire.PING, wire.ACK, 0, self.pings.pop(0)))

    @property
    def ends(self):
        """The end of the right server's connection is told where no play was before it."""
        return not self.done

    @staticmethod
    def is_error(kind, flags, content, fields):
        """Whether a frame of the right server tells an error."""
        if kind in (wire.RST_STREAM, wire.GOAWAY):
            return content[-4:] != bytes(4) if kind == wire.RST_STREAM else content[4:8] != bytes(4)
        status = dict(fields)
        return kind == wire.HEADERS and (status.get(":status", "200") >= "400" or status.get("grpc-status", "0") != "0")

    def play(self, stream):
        """Writes what the play is, and ends the connection where that is in it."""
        self.done = True
        self.over.add(stream)
        word, _, number = self.name.partition(" ")
        if word == "http":
            self.write(RESPONSE_OF_HTTP)
        elif word == "goaway":
            self.write(wire.frame(wire.GOAWAY, 0, 0, struct.pack(">II", self.last, int(number))))
        elif word == "reset":
            self.write(wire.reset(stream, int(number)))
        elif re.fullmatch(r"\d+(\+\d+)?", word):
            self.write(*self.response(stream, *word.split("+")))
        if word in ("http", "goaway", "end"):
            self.alone = True
            self.hang_up()
        self.answer_alone()

    def response(self, stream, status, code=None):
        """A response with an `:status`, or a status of gRPC where it is below 100; and RST_STREAM with this code."""
        fields = [(":status", status)] if int(status) >= 100 else [*GRPC, ("grpc-status", status)]
        flags = 0 if code and code != "0" else wire.END_STREAM
        frames = [wire.frame(*self.spelled((wire.HEADERS, flags, stream, b""), fields))]
        return frames + ([wire.reset(stream, int(code))] if code else [])

    def hang_up(self):
        try:
            self.client.shutdown(socket.SHUT_RDWR)
        except OSError:
            pass


def size_change(block):
    """The change of the table's size to a small one with which a block begins, if it does (RFC 7541, section 6.3)."""
    return block[:1] if block and 0x20 <= block[0] < 0x3F else b""


class Interim(wrong.Wrong):
    """An interim response stands before each response."""

    def __init__(self, client):
        super().__init__(client)
        self.begun = set()

    def from_server(self, frame):
        if frame[0] != wire.HEADERS or frame[2] in self.begun or size_change(frame[3]):
            return [frame]
        self.begun.add(frame[2])
        return [self.spelled((wire.HEADERS, 0, frame[2], b""), [(":status", "103")]), frame]


class Chatty(wrong.Wrong):
    """A PING, PRIORITY, a frame of an unknown type and credit for the connection stand before each frame but the first."""

    MORE = [(wire.PING, 0, 0, bytes(8)), (wire.PRIORITY, 0, 1, bytes(5)), (99, 255, 1, b"x"), (wire.WINDOW_UPDATE, 0, 0, b"\0\0\0\1")]

    def from_server(self, frame):
        self.settings += 1
        return [*self.MORE, frame] if self.settings > 1 else [frame]


class Fragments(wrong.Wrong):
    """Header blocks come in fragments of three bytes, and DATA in frames with padding."""

    def from_server(self, frame):
        kind, flags, stream, content = frame
        if kind == wire.DATA and content and len(content) < 1000:
            return [(kind, flags | wire.PADDED, stream, b"\3" + content + bytes(3))]
        if kind != wire.HEADERS:
            return [frame]
        pieces = [content[at:at + 3] for at in range(0, len(content), 3)]
        frames = [(wire.CONTINUATION, 0, stream, piece) for piece in pieces]
        frames[0] = (wire.HEADERS, flags & ~wire.END_HEADERS, stream, pieces[0])
        frames[-1] = (frames[-1][0], frames[-1][1] | wire.END_HEADERS, stream, pieces[-1])
        return frames


class Holds(wrong.Wrong):
    """It sends no DATA, whatever the windows are."""

    def from_server(self, frame):
        return [] if frame[0] == wire.DATA else [frame]


class Announces(wrong.Wrong):
    """Its SETTINGS have a greater SETTINGS_MAX_FRAME_SIZE, a parameter that isn't known, and one twice."""

    def from_server(self, frame):
        kind, flags, stream, content = frame
        if kind == wire.SETTINGS and not flags:
            content += struct.pack(">HIHIHI", 5, 20_000, 5, 20_000, 0xF00D, 7)
        return [(kind, flags, stream, content)]


class KnowsNoMethod(wrong.Wrong):
    """It has no such method: each call is answered by `:status` 404."""

    def __init__(self, client):
        super().__init__(client)
        self.begun = set()

    def from_server(self, frame):
        kind, flags, stream, content = frame
        if kind not in (wire.HEADERS, wire.DATA):
            return [frame]
        if stream in self.begun:
            return []
        self.begun.add(stream)
        block = size_change(content) + wire.literal(":status", "404")
        return [(kind, wire.END_HEADERS | wire.END_STREAM, stream, block)]


def listen(port, play, place):
    """The port of a server with this play, before the right server at `port`."""
    first = itertools.count()

    def make(client):
        is_sound = place and place.later and next(first) == 0
        return wrong.Wrong(client) if is_sound else Play(client, play, place)

    return wrong.listen(port, make)
