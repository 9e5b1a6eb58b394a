"""A server that breaks rules on purpose: it hands a client's bytes to a right server, and changes what comes back.

`listen(port, wrong)` answers the port of a server that does this one thing wrong; `WRONG` has them all. The right server
listens at `port` of 127.0.0.1. It needs the Debian package python3-hpack.
"""
import socket
import struct
import threading

import hpack
import wire


class Wrong:
    """Right: what comes is handed on as it came. The others change one thing."""

    # Whether the client is told that the right server ended the connection.
    ends = True

    def __init__(self, client):
        self.client = client
        self.lock = threading.Lock()
        self.decoder = hpack.Decoder()
        self.block = None
        self.settings = 0
        self.seen = b""

    def write(self, *frames):
        with self.lock:
            self.client.sendall(b"".join(frames))

    def from_server(self, frame):
        """The frames that stand for one of the right server."""
        return [frame]

    def from_client(self, frame):
        """Looks at a frame of the client."""

    def heads(self, joined):
        """Looks at the frames of the client as they came, the reserved bit too."""

    def fields(self, frame):
        """The fields of a header block, which is one frame in all that the right server says here."""
        return self.decoder.decode(frame[3], raw=False)

    def spelled(self, frame, fields):
        block = b"".join(wire.literal(name, value) for name, value in fields)
        return (wire.HEADERS, frame[1] | wire.END_HEADERS, frame[2], block)


class SaysNothing(Wrong):
    """Behind its first SETTINGS it says nothing."""

    ends = False

    def from_server(self, frame):
        self.settings += frame[0] == wire.SETTINGS
        return [frame] if self.settings == 1 and frame[0] == wire.SETTINGS and not frame[1] else []


class FindsNoError(Wrong):
    """It passes errors over: no GOAWAY with one, no RST_STREAM, no end of the connection. PINGs are answered for ever."""

    ends = False

    def from_server(self, frame):
        return [] if frame[0] in (wire.GOAWAY, wire.RST_STREAM, wire.PING) else [frame]

    def from_client(self, frame):
        if frame[0] == wire.PING and not frame[1] & wire.ACK:
            self.write(wire.frame(wire.PING, wire.ACK, 0, frame[3][:8].ljust(8, b"\0")))


class SaysAnotherError(Wrong):
    """GOAWAY and RST_STREAM with another code, and no end of the connection."""

    ends = False

    def from_server(self, frame):
        kind, flags, stream, content = frame
        if kind == wire.RST_STREAM:
            content = struct.pack(">I", 12)
        if kind == wire.GOAWAY:
            content = content[:4] + struct.pack(">I", 12) + content[8:]
        return [(kind, flags, stream, content)]


class FindsErrors(Wrong):
    """What is right is GOAWAY INTERNAL_ERROR to it: each acknowledgement of a PING, and each end of a response."""

    def from_server(self, frame):
        kind, flags = frame[:2]
        if kind == wire.HEADERS:
            frame = self.spelled(frame, self.fields(frame))
        ends = kind in (wire.HEADERS, wire.DATA) and flags & wire.END_STREAM
        if ends or kind == wire.PING and flags & wire.ACK:
            return [(wire.GOAWAY, 0, 0, struct.pack(">II", 0, 2))]
        return [frame]


class SaysAnotherStatus(Wrong):
    """Status 0 becomes 2, and any other 0; an `:status` of 400 and more becomes 200."""

    def from_server(self, frame):
        if frame[0] != wire.HEADERS:
            return [frame]
        return [self.spelled(frame, [self.changed(*it) for it in self.fields(frame)])]

    def changed(self, name, value):
        if name == "grpc-status":
            return name, "2" if value == "0" else "0"
        if name == ":status" and value >= "400":
            return name, "200"
        return name, value


class SendsMore(Wrong):
    """A byte of DATA behind each Response-Headers, and one more in each DATA frame, whatever the windows are."""

    def from_server(self, frame):
        kind, flags, stream, content = frame
        if kind == wire.HEADERS and not flags & wire.END_STREAM:
            return [frame, (wire.DATA, 0, stream, b"\0")]
        if kind == wire.DATA:
            return [(kind, flags, stream, content + b"\0")]
        return [frame]


class SendsLess(Wrong):
    """Of each DATA frame the last byte is missing."""

    def from_server(self, frame):
        kind, flags, stream, content = frame
        return [(kind, flags, stream, content[:-1])] if kind == wire.DATA else [frame]


class RepliesTwice(Wrong):
    """Each DATA frame comes twice."""

    def from_server(self, frame):
        return [frame, frame] if frame[0] == wire.DATA and not frame[1] & wire.END_STREAM else [frame]


class EndsEarly(Wrong):
    """Response-Headers are trailers, and nothing comes behind them."""

    def __init__(self, client):
        super().__init__(client)
        self.ended = set()

    def from_server(self, frame):
        kind, flags, stream, content = frame
        if kind not in (wire.HEADERS, wire.DATA):
            return [frame]
        fields = self.fields(frame) if kind == wire.HEADERS else []
        if stream in self.ended:
            return []
        self.ended.add(stream)
        return [self.spelled((kind, wire.END_STREAM, stream, content), fields)]


class LosesFields(Wrong):
    """Of fields only `:status` and `grpc-status` come, and no text."""

    def from_server(self, frame):
        if frame[0] != wire.HEADERS:
            return [frame]
        kept = [it for it in self.fields(frame) if it[0] in (":status", "grpc-status")]
        return [self.spelled(frame, kept)]


class AddsFields(Wrong):
    """Each header block has a text and echoes more; a refusal is cut into Response-Headers and Trailers."""

    MORE = [("grpc-message", "x"), ("x-grpc-test-echo-initial", "x"), ("x-grpc-test-echo-trailing-bin", "eA")]

    def from_server(self, frame):
        if frame[0] != wire.HEADERS:
            return [frame]
        fields = self.fields(frame)
        if dict(fields).get(":status") == "200" and frame[1] & wire.END_STREAM:
            head = (wire.HEADERS, 0, frame[2], b"")
            return [self.spelled(head, fields[:2]), self.spelled(frame, fields[2:] + self.MORE)]
        return [self.spelled(frame, fields + self.MORE)]


class PingsBack(Wrong):
    """It answers PING with ACK."""

    def from_client(self, frame):
        if frame[0] == wire.PING and frame[1] & wire.ACK:
            self.write(wire.frame(*frame))


class PingsFirst(Wrong):
    """A PING stands before its SETTINGS."""

    def from_server(self, frame):
        self.settings += 1
        return [(wire.PING, 0, 0, bytes(8)), frame] if self.settings == 1 else [frame]


class SetsPush(Wrong):
    """Its SETTINGS have ENABLE_PUSH 1."""

    def from_server(self, frame):
        kind, flags, stream, content = frame
        if kind == wire.SETTINGS and not flags:
            content += struct.pack(">HI", 2, 1)
        return [(kind, flags, stream, content)]


class AcknowledgesTwice(Wrong):
    """Each SETTINGS is acknowledged twice."""

    def from_server(self, frame):
        return [frame, frame] if frame[0] == wire.SETTINGS and frame[1] else [frame]


class AcknowledgesOnce(Wrong):
    """Only its first SETTINGS are acknowledged."""

    def from_server(self, frame):
        self.settings += frame[0] == wire.SETTINGS and frame[1]
        return [frame] if frame[0] != wire.SETTINGS or not frame[1] or self.settings == 1 else []


class SpeaksOn(Wrong):
    """Behind RST_STREAM and behind END_STREAM come trailers."""

    def from_server(self, frame):
        kind, flags, stream, _ = frame
        if kind == wire.HEADERS:
            frame = self.spelled(frame, self.fields(frame))
        if kind == wire.RST_STREAM or kind in (wire.HEADERS, wire.DATA) and flags & wire.END_STREAM:
            trailers = (wire.HEADERS, wire.END_STREAM, stream, b"")
            return [frame, self.spelled(trailers, [("grpc-status", "0")])]
        return [frame]


class RepliesAtOnce(Wrong):
    """Each DATA frame of a call is answered by a reply at once."""

    HEAD = [(":status", "200"), ("content-type", "application/grpc")]

    def __init__(self, client):
        super().__init__(client)
        self.begun = set()

    def from_client(self, frame):
        kind, flags, stream, content = frame
        if kind == wire.DATA and stream and content and not flags & wire.END_STREAM:
            head = wire.frame(*self.spelled((wire.HEADERS, 0, stream, b""), self.HEAD))
            self.write(*([] if stream in self.begun else [head]), wire.data(stream, wire.message()))
            self.begun.add(stream)


class AnswersOn(Wrong):
    """Behind GOAWAY with an error stream 1 is answered."""

    def from_server(self, frame):
        if frame[0] != wire.GOAWAY:
            return [frame]
        head = (wire.HEADERS, wire.END_STREAM, 1, b"")
        return [frame, self.spelled(head, [(":status", "200"), ("grpc-status", "0")])]


class StaysOpen(Wrong):
    """It says GOAWAY, and leaves the connection open."""

    ends = False


class JustEnds(Wrong):
    """It ends the connection in place of GOAWAY."""

    def from_server(self, frame):
        return [None] if frame[0] == wire.GOAWAY else [frame]


class Fussy(Wrong):
    """Whatever a client may leave is an error to it: frames but the plainest, fields but those of a call, a message in pieces."""

    FIELDS = {b":method", b":scheme", b":path", b":authority", b"te", b"content-type"}
    FLAGS = {
        wire.DATA: (0, 1),
        wire.HEADERS: (0, 4, 5),
        wire.SETTINGS: (0, 1),
        wire.PING: (0, 1),
        wire.RST_STREAM: (0,),
        wire.WINDOW_UPDATE: (0,),
        wire.CONTINUATION: (4,),
    }

    def __init__(self, client):
        super().__init__(client)
        self.said = False
        self.last_reset = 0
        self.with_data = set()
        self.ended = set()

    def from_server(self, frame):
        if frame[0] in (wire.HEADERS, wire.DATA) and frame[1] & wire.END_STREAM:
            self.ended.add(frame[2])
        return [] if self.said else [frame]

    def heads(self, joined):
        while joined:
            if joined[5] & 0x80:
                self.object()
            joined = joined[9 + int.from_bytes(joined[:3], "big"):]

    def from_client(self, frame):
        kind, flags, stream, content = frame
        plain = flags in self.FLAGS.get(kind, ()) and stream < 100 and len(content) < 5_000
        if plain and kind == wire.SETTINGS and not flags:
            self.settings += 1
            plain = self.settings == 1 or content in (b"", bytes.fromhex("000400000000"))
        if plain and kind == wire.HEADERS:
            plain = self.is_plain(content)
        if plain and kind == wire.DATA:
            plain = not wire.messages(content)[1] and (content != b"" or flags == 1 and stream not in self.with_data)
            plain = plain and stream not in self.ended
            self.with_data.add(stream)
        if plain and kind == wire.CONTINUATION:
            plain = content == b""
        if plain and kind == wire.RST_STREAM:
            plain = content == bytes.fromhex("00000008") and stream != self.last_reset
            self.last_reset = stream
        if plain and kind == wire.WINDOW_UPDATE:
            plain = content in (bytes.fromhex("00100000"), bytes.fromhex("00000001")) and stream not in self.ended
        if not plain:
            self.object()

    def object(self):
        if not self.said:
            self.said = True
            self.write(wire.frame(wire.GOAWAY, 0, 0, struct.pack(">II", 0, 12)))

    def is_plain(self, block):
        """Whether a block has the fields of a call, and no others: literals whose names are spelled out, or `:method` and `:scheme`."""
        names = []
        while block[:1] in (b"\x82", b"\x83", b"\x86", b"\x87", b"\x00", b"\x01"):
            if block[:1] >= b"\x80":
                names.append(b":method" if block[0] < 0x86 else b":scheme")
                block = block[1:]
                continue
            name, block = (b":authority", block[1:]) if block[:1] == b"\x01" else self.string(block[1:])
            value, block = self.string(block)
            names.append(name if value and not value.startswith(b"application/grpc+") else b"")
        return not block and b":authority" in names and len(set(names)) == len(names) and set(names) <= self.FIELDS

    @staticmethod
    def string(block):
        """A string at the beginning of these bytes, and what is left; no string where no byte is there."""
        length = block[0] if block else 0
        return block[1:1 + length], block[1 + length:]


class TakesOldStreams(Wrong):
    """A call is answered on each stream, whether it may be opened or not; errors are passed over."""

    HEAD = [(":status", "200"), ("content-type", "application/grpc"), ("grpc-status", "0")]
    ends = False

    def from_server(self, frame):
        return [] if frame[0] in (wire.GOAWAY, wire.RST_STREAM, wire.PING) else [frame]

    def from_client(self, frame):
        kind, flags, stream, content = frame
        if kind in (wire.HEADERS, wire.DATA) and flags & wire.END_STREAM:
            self.write(wire.frame(*self.spelled((wire.HEADERS, wire.END_STREAM, stream, b""), self.HEAD)))
        if kind == wire.PING and not flags & wire.ACK:
            self.write(wire.frame(wire.PING, wire.ACK, 0, content))


class ResetsBack(Wrong):
    """RST_STREAM is answered by DATA and RST_STREAM, and no stream is served any more."""

    def __init__(self, client):
        super().__init__(client)
        self.said = False

    def from_server(self, frame):
        return [] if self.said and frame[0] in (wire.HEADERS, wire.DATA) else [frame]

    def from_client(self, frame):
        kind, _, stream, _ = frame
        if kind == wire.RST_STREAM and stream:
            self.said = True
            self.write(wire.data(stream, b"x"), wire.reset(stream, 8))


class LeavesPings(Wrong):
    """It answers no PING."""

    def from_server(self, frame):
        return [] if frame[0] == wire.PING else [frame]


class LosesEntries(Wrong):
    """It reads no block of a malformed request or on a stream that was reset. So a later block that names an entry of it is an error,
    and it takes that for one of the stream."""

    def __init__(self, client):
        super().__init__(client)
        self.reset = set()
        self.has_lost = False
        self.over = set()

    def from_server(self, frame):
        return [] if frame[2] in self.over else [frame]

    def from_client(self, frame):
        kind, _, stream, content = frame
        if kind == wire.RST_STREAM:
            self.reset.add(stream)
        if kind == wire.HEADERS and self.has_lost and content.endswith(b"\xbe"):
            self.over.add(stream)
            self.write(wire.reset(stream, 9))
        self.has_lost |= kind == wire.HEADERS and (stream in self.reset or b"\x01X" in content)


class Misnames(Wrong):
    """What it may take for an error, though few servers do, it tells by an error that isn't one of those that may stand for it: padding
    that isn't zero, and a content-length that isn't that of the DATA."""

    def __init__(self, client):
        super().__init__(client)
        self.said = False

    def from_server(self, frame):
        return [] if self.said else [frame]

    def from_client(self, frame):
        kind, flags, _, content = frame
        padding = content[-content[0]:] if kind == wire.DATA and flags & wire.PADDED and content and content[0] else b""
        if any(padding) or kind == wire.HEADERS and b"content-length\x017" in content:
            self.said = True
            self.write(wire.frame(wire.GOAWAY, 0, 0, struct.pack(">II", 0, 12)))


class SaysOk(SaysAnotherStatus):
    """Each response is one of status 0."""

    def changed(self, name, value):
        if name == "grpc-status":
            return name, "0"
        return (name, "200") if name == ":status" else (name, value)


WRONG = {it.__name__: it for it in [*Wrong.__subclasses__(), SaysOk]}


def relay_back(server, wrong):
    """What the right server says, changed."""
    rest = b""
    try:
        while True:
            came = server.recv(65_536)
            if not came:
                break
            frames, rest = wire.split(rest + came)
            for frame in frames:
                for changed in wrong.from_server(frame):
                    if changed is None:
                        raise ConnectionError
                    wrong.write(wire.frame(*changed))
    except OSError:
        pass
    if wrong.ends:
        try:
            wrong.client.shutdown(socket.SHUT_RDWR)
        except OSError:
            pass


def relay(client, port, make):
    """A connection of a client."""
    with client, socket.create_connection(("127.0.0.1", port)) as server:
        for it in (client, server):
            it.setsockopt(socket.IPPROTO_TCP, socket.TCP_NODELAY, 1)
        wrong = make(client)
        threading.Thread(target=relay_back, args=(server, wrong), daemon=True).start()
        rest, begun = b"", False
        try:
            while True:
                came = client.recv(65_536)
                if not came:
                    break
                rest += came
                if not begun and rest.startswith(wire.PREFACE):
                    rest, begun = rest[len(wire.PREFACE):], True
                if begun:
                    joined = rest
                    frames, rest = wire.split(rest)
                    wrong.heads(joined[:len(joined) - len(rest)])
                    for frame in frames:
                        wrong.from_client(frame)
                try:
                    server.sendall(came)
                except OSError:
                    pass
        except OSError:
            pass
        try:
            server.shutdown(socket.SHUT_RDWR)
        except OSError:
            pass


def listen(port, make):
    """The port of a server that does this one thing wrong, before a right server at `port`."""
    listener = socket.socket()
    listener.bind(("127.0.0.1", 0))
    listener.listen(64)

    def serve():
        while True:
            client, _ = listener.accept()
            threading.Thread(target=relay, args=(client, port, make), daemon=True).start()

    threading.Thread(target=serve, daemon=True).start()
    return listener.getsockname()[1]
