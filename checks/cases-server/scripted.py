"""A server of one call, by frames, that says what a script has: what a server on a library can't be made to say.

It reads the client's frames, and acknowledges SETTINGS and PINGs unless the script has it otherwise. What it says at the
beginning, once the call's request has ended, and at the first PING behind that are the script's; of large_unary it writes the
reply as the windows let it through, or as the script has them. The scripts are those of checks/broken-servers.
"""
import socket
import struct
from dataclasses import dataclass

import wire

STATUS_200 = b"\x88"
CONTENT_TYPE = wire.literal("content-type", "application/grpc")
STATUS_OK = wire.literal("grpc-status", "0")


def headers(stream, block, end=False, end_headers=True):
    flags = (wire.END_STREAM if end else 0) | (wire.END_HEADERS if end_headers else 0)
    return wire.frame(wire.HEADERS, flags, stream, block)


HEAD = headers(1, STATUS_200 + CONTENT_TYPE)
REPLY = wire.data(1, wire.message())
TRAILERS = headers(1, STATUS_OK, end=True)
# The right answer to EmptyCall.
ANSWER = HEAD + REPLY + TRAILERS


@dataclass
class Script:
    """What the server says, and which of its duties it neglects."""

    begin: bytes = wire.settings()
    answer: bytes = ANSWER
    # What stands before the acknowledgement of the first PING behind the answer, and behind it.
    before_pong: bytes = b""
    behind_pong: bytes = b""
    acks_settings: bool = True
    acks_pings: bool = True
    # Bytes that are acknowledged in place of those of the first PING.
    pong: bytes = b""
    gives_credit: bool = True
    # Closes the connection behind the beginning, or behind the answer.
    closes: str = ""
    # Of large_unary: which windows the server keeps, and how many bytes of padding, which it doesn't count, a frame has.
    large: bool = False
    keeps: tuple = ("stream", "connection")
    padding: int = 0
    # When it answers: once the request has ended, at its first DATA, or once the client has reset the stream.
    answers: str = "at the end"


class Connection:
    def __init__(self, device, script):
        self.device = device
        self.script = script
        self.windows = {"stream": wire.WINDOW, "connection": wire.WINDOW}
        self.left = b""
        self.trailers = b""
        self.has_answered = False
        self.pings = 0

    def write(self, content):
        self.device.sendall(content)

    def serve(self):
        came = b""
        while len(came) < len(wire.PREFACE):
            piece = self.device.recv(len(wire.PREFACE) - len(came))
            if not piece:
                return
            came += piece
        self.write(self.script.begin)
        if self.script.closes == "at the beginning":
            return
        rest = b""
        while True:
            came = self.device.recv(65_536)
            if not came:
                return
            frames, rest = wire.split(rest + came)
            for found in frames:
                self.take(*found)
            self.flush()
            if self.has_answered and self.script.closes == "behind the answer":
                return

    def take(self, kind, flags, stream, content):
        script = self.script
        if kind == wire.SETTINGS and not flags & wire.ACK:
            if script.acks_settings:
                self.write(wire.frame(wire.SETTINGS, wire.ACK, 0))
        elif kind == wire.PING and not flags & wire.ACK:
            self.pinged(content)
        elif kind == wire.WINDOW_UPDATE:
            self.windows["stream" if stream else "connection"] += struct.unpack(">I", content)[0]
        elif kind == wire.DATA:
            if content and script.gives_credit:
                self.write(wire.credit(0, len(content)))
                if not flags & wire.END_STREAM:
                    self.write(wire.credit(stream, len(content)))
            if script.answers == "at DATA" or (script.answers == "at the end" and flags & wire.END_STREAM):
                self.answer()
        elif kind == wire.RST_STREAM and script.answers == "at a reset":
            self.answer()

    def pinged(self, content):
        first = self.has_answered and not self.left and not self.trailers and not self.pings
        self.pings += first
        if first:
            self.write(self.script.before_pong)
        if self.script.acks_pings:
            self.write(wire.frame(wire.PING, wire.ACK, 0, first and self.script.pong or content))
        if first:
            self.write(self.script.behind_pong)

    def answer(self):
        if self.has_answered:
            return
        self.has_answered = True
        if not self.script.large:
            self.write(self.script.answer)
            return
        self.write(HEAD)
        self.left = wire.message(wire.response(314_159))
        self.trailers = TRAILERS

    def flush(self):
        """Writes of the reply what those windows let through that are kept."""
        pad = self.script.padding
        while self.left:
            room = min([wire.LARGEST - pad - bool(pad), *(self.windows[name] for name in self.script.keeps)])
            if room <= 0:
                return
            piece, self.left = self.left[:room], self.left[room:]
            for name in self.windows:
                self.windows[name] -= len(piece)
            if pad:
                self.write(wire.frame(wire.DATA, wire.PADDED, 1, bytes([pad]) + piece + bytes(pad)))
            else:
                self.write(wire.data(1, piece))
        self.write(self.trailers)
        self.trailers = b""


def serve(device, script):
    with device:
        device.setsockopt(socket.IPPROTO_TCP, socket.TCP_NODELAY, 1)
        try:
            Connection(device, script).serve()
            if script.closes:
                # What was said is to arrive: so all that comes is read first.
                device.shutdown(socket.SHUT_WR)
                while device.recv(65_536):
                    pass
        except OSError:
            # The client has left, since its case has failed.
            pass


def listen(script):
    """Starts a server that goes by this script, and answers its port."""
    return wire.listen(lambda device: serve(device, script))
