"""grpc.testing.TestService by frames, right but for one fault: what a server on a library can't be made to do wrong.

A connection has one call at a time. The faults are those of checks/planted-faults.
"""
import base64
import socket
import struct
import time

import hpack
import wire

INITIAL, TRAILING = "x-grpc-test-echo-initial", "x-grpc-test-echo-trailing-bin"
UNITS = {"H": 3600, "M": 60, "S": 1, "m": 1e-3, "u": 1e-6, "n": 1e-9}
UNSPELLED = set(range(0x20, 0x7F)) - {ord("%")}


def percent(text):
    return "".join(chr(byte) if byte in UNSPELLED else f"%{byte:02X}" for byte in text.encode())


def flip(value):
    """Binary metadata with its last byte changed."""
    content = base64.b64decode(value + "=" * (-len(value) % 4))
    return base64.b64encode(content[:-1] + bytes([content[-1] ^ 1])).decode().rstrip("=")


class Call:
    """A call: what came of it, and what it is answered with."""

    def __init__(self, stream, head, window):
        self.stream = stream
        self.head = head
        self.method = head[":path"].rpartition("/")[2]
        self.rest = b""
        self.requests = 0
        self.total = 0
        self.has_head = False
        self.waiting = []
        self.over = False
        self.window = window


class Connection:
    def __init__(self, device, fault):
        self.device = device
        self.fault = fault
        self.decoder = hpack.Decoder()
        self.window = self.initial = wire.WINDOW
        self.call = None
        self.has_left = False

    def write(self, *frames):
        if not self.has_left:
            self.device.sendall(b"".join(frames))

    def leave(self):
        """Says nothing more. What comes is read still, so that what was said arrives."""
        self.device.shutdown(socket.SHUT_WR)
        self.has_left = True

    def serve(self):
        came = b""
        while len(came) < len(wire.PREFACE):
            came += self.device.recv(len(wire.PREFACE) - len(came))
        self.write(wire.settings((3, 64)))
        rest = b""
        while True:
            came = self.device.recv(65_536)
            if not came:
                return
            frames, rest = wire.split(rest + came)
            for found in frames:
                self.take(*found)
            self.flush()

    def take(self, kind, flags, stream, content):
        if kind == wire.SETTINGS and not flags & wire.ACK:
            self.settings(content)
            self.write(wire.frame(wire.SETTINGS, wire.ACK, 0))
        elif kind == wire.PING and not flags & wire.ACK:
            self.write(wire.frame(wire.PING, wire.ACK, 0, content))
        elif kind == wire.WINDOW_UPDATE:
            self.credited(stream, int.from_bytes(content, "big"))
        elif kind == wire.HEADERS:
            self.open(stream, content)
        elif kind == wire.DATA:
            self.data(flags, content)
        elif kind == wire.RST_STREAM:
            self.reset()

    def settings(self, content):
        for number, value in struct.iter_unpack(">HI", content):
            if number == wire.INITIAL_WINDOW:
                if self.call:
                    self.call.window += value - self.initial
                self.initial = value

    def credited(self, stream, increment):
        if stream == 0:
            self.window += increment
        elif self.call and self.call.stream == stream:
            self.call.window += increment

    def open(self, stream, block):
        head = dict(self.decoder.decode(block))
        self.call = call = Call(stream, head, self.initial)
        timeout = head.get("grpc-timeout", "1H")
        seconds = int(timeout[:-1]) * UNITS[timeout[-1]]
        if seconds < 1:
            time.sleep(seconds)
            self.end(0 if self.fault == "deadline forgotten" else 4)
        service = head[":path"].split("/")[1]
        if service != "grpc.testing.TestService":
            self.unimplemented("service implemented")
        elif call.method == "UnimplementedCall":
            self.unimplemented("method implemented")

    def unimplemented(self, fault):
        if self.fault == fault:
            self.reply(b"")
            self.end(0)
        else:
            self.end(12)

    def data(self, flags, content):
        call = self.call
        if content:
            self.write(wire.credit(0, len(content)), wire.credit(call.stream, len(content)))
        requests, call.rest = wire.messages(call.rest + content)
        for request in requests:
            call.requests += 1
            if not call.over:
                getattr(self, call.method)(request)
        if flags & wire.END_STREAM and not call.over:
            self.half_closed()

    def EmptyCall(self, _request):
        call, fault = self.call, self.fault
        if fault == "no frame":
            self.write(wire.frame(wire.DATA, 0, call.stream, bytes(wire.LARGEST + 1)))
        elif fault == "no header block":
            self.write(wire.frame(wire.HEADERS, wire.END_HEADERS, call.stream, b"\x80"))
        elif fault == "no trailers":
            self.reply(b"", last=True)
        elif fault == "status of no number":
            self.reply(b"")
            self.end("no number")
        else:
            if fault != "no reply":
                self.reply(b"\x08\x01" if fault == "filled reply" else b"")
            self.end(0)

    def UnaryCall(self, request):
        if self.judge(request):
            return
        size = wire.fields_of(request)[2][-1]
        if self.fault == "short body":
            size -= 1
        reply = bytearray(wire.response(size))
        if self.fault == "body that is not zero":
            reply[len(reply) - size + 17] = 1
        self.reply(bytes(reply))
        if self.fault == "reset for trailers":
            self.call.waiting.append((wire.RST_STREAM, 0, (2).to_bytes(4, "big")))
            self.call.over = True
        else:
            self.end(0)

    def StreamingInputCall(self, request):
        self.call.total += wire.body_length(request, 1)

    def StreamingOutputCall(self, request):
        sizes = [wire.fields_of(it)[1][-1] for it in wire.fields_of(request)[2]]
        if self.fault == "reply dropped":
            sizes = sizes[:-1]
        if self.fault == "replies in another order":
            sizes = sizes[::-1]
        for size in sizes:
            self.reply(wire.response(size))
        self.end(0)

    def FullDuplexCall(self, request):
        is_third = self.call.requests == 3
        if is_third and self.fault == "end at the third request":
            self.end(0)
            return
        if self.judge(request):
            return
        for parameters in wire.fields_of(request).get(2, []):
            size = wire.fields_of(parameters)[1][-1]
            self.reply(wire.response(size + (is_third and self.fault == "third reply longer")))

    def half_closed(self):
        call = self.call
        if call.method == "StreamingInputCall":
            self.reply(wire.number_field(1, call.total + (self.fault == "wrong sum")))
        if call.method == "FullDuplexCall":
            if self.fault == "reply behind the end" or (self.fault == "reply to nothing" and not call.requests):
                self.reply(wire.response(1))
        self.end(0)

    def judge(self, request):
        """Ends the call with the status that a request asks for, if it does."""
        asked = wire.fields_of(request).get(7)
        if not asked:
            return False
        status = wire.fields_of(asked[-1])
        code, text = status[1][-1], status[2][-1].decode()
        if self.fault == "wrong code":
            code = 3
        if self.fault == "wrong text" and text == "test status message":
            text = "test status massage"
        if self.fault == "text cut at a line's end":
            text = text.partition("\n")[0]
        self.end(code, text)
        return True

    def reply(self, content, last=False):
        call = self.call
        self.give_head()
        call.waiting.append((wire.DATA, wire.END_STREAM if last else 0, wire.message(content)))
        call.over = last

    def give_head(self):
        call = self.call
        if call.has_head:
            return
        call.has_head = True
        fields = [wire.literal("content-type", "application/grpc")]
        if INITIAL in call.head and self.fault not in ("no initial echo", "initial echo in the trailers"):
            fields.append(wire.literal(INITIAL, call.head[INITIAL]))
        call.waiting.append((wire.HEADERS, wire.END_HEADERS, b"\x88" + b"".join(fields)))

    def end(self, code, text=""):
        call = self.call
        self.give_head()
        fields = [wire.literal("grpc-status", str(code))]
        if text:
            fields.append(wire.literal("grpc-message", percent(text)))
        if TRAILING in call.head and self.fault != "no trailing echo":
            value = call.head[TRAILING]
            fields.append(wire.literal(TRAILING, flip(value) if self.fault == "other trailing bytes" else value))
        if INITIAL in call.head and self.fault == "initial echo in the trailers":
            fields.append(wire.literal(INITIAL, call.head[INITIAL]))
        call.waiting.append((wire.HEADERS, wire.END_HEADERS | wire.END_STREAM, b"".join(fields)))
        call.over = True

    def reset(self):
        if self.fault == "GOAWAY at a reset before a message" and not self.call.requests:
            self.write(wire.frame(wire.GOAWAY, 0, 0, bytes(4) + (2).to_bytes(4, "big")))
            self.leave()
        elif self.fault == "closed at a reset behind a message" and self.call.requests:
            self.leave()
        self.call = None

    def flush(self):
        """Writes what the windows let through."""
        call = self.call
        while call and call.waiting:
            kind, flags, content = call.waiting.pop(0)
            if kind != wire.DATA:
                self.write(wire.frame(kind, flags, call.stream, content))
                continue
            room = max(0, min(wire.LARGEST, self.window, call.window))
            piece, left = content[:room], content[room:]
            if left:
                call.waiting.insert(0, (kind, flags, left))
            if not piece:
                return
            self.window -= len(piece)
            call.window -= len(piece)
            self.write(wire.frame(kind, 0 if left else flags, call.stream, piece))


def serve(device, fault):
    with device:
        device.setsockopt(socket.IPPROTO_TCP, socket.TCP_NODELAY, 1)
        try:
            Connection(device, fault).serve()
        except OSError:
            # The client has left, or a case of it has failed and it reads no more.
            pass


def listen(fault):
    """Starts a server that does this wrong, and answers its port."""
    return wire.listen(lambda device: serve(device, fault))
