"""A second server of grpc.testing.TestService that does right, and shares nothing with `interop serve`: HTTP/2 is that of python-h2.

`listen()` answers its port. It needs the Debian package python3-h2. What python-h2 doesn't look at, or takes amiss though a client
may do it, is seen to before (`Intake`): the first frame, the bytes of fields, the reserved bit of an increment, and GOAWAY.
"""
import re
import socket
import time

import wire
from h2.config import H2Configuration
from h2.connection import H2Connection
from h2.errors import ErrorCodes
from h2.events import DataReceived, RequestReceived, StreamEnded, StreamReset
from h2.exceptions import ProtocolError

GRPC = [(":status", "200"), ("content-type", "application/grpc")]
LONGEST = 4_194_304
UNITS = {"H": 3600.0, "M": 60.0, "S": 1.0, "m": 1e-3, "u": 1e-6, "n": 1e-9}
OK, INVALID, DEADLINE, EXHAUSTED, UNIMPLEMENTED, INTERNAL = 0, 3, 4, 8, 12, 13
# How often deadlines are looked at, in seconds.
TICK = 0.02


class Refused(Exception):
    """A call ends with this status."""

    def __init__(self, status, text=""):
        super().__init__(text)
        self.status, self.text = status, text


def percent(text):
    return "".join(chr(it) if 0x20 <= it <= 0x7E and it != 0x25 else f"%{it:02X}" for it in text)


def fields_of(message):
    try:
        return wire.fields_of(message)
    except (IndexError, TypeError):
        raise Refused(INTERNAL, "no such message") from None


def asked_status(request):
    """Ends the call with the status that a request asks for."""
    status = fields_of(request).get(7)
    if status:
        asked = fields_of(status[-1])
        raise Refused(asked.get(1, [0])[-1], percent(asked.get(2, [b""])[-1]))


class Call:
    """A call: what came, and what is to be sent as windows let it through."""

    def __init__(self, fields):
        self.fields = {}
        for name, value in fields:
            self.fields.setdefault(name, value)
        self.path = self.fields.get(":path", "")
        self.rest = b""
        self.requests = []
        self.out = b""
        self.trailers = None
        self.has_head = self.is_over = False
        self.deadline = None

    def head(self):
        echo = self.fields.get("x-grpc-test-echo-initial")
        return GRPC + ([("x-grpc-test-echo-initial", echo)] if echo is not None else [])

    def tail(self, status, text=""):
        echo = self.fields.get("x-grpc-test-echo-trailing-bin") if status == OK else None
        fields = [("grpc-status", str(status))] + ([("grpc-message", text)] if text else [])
        return fields + ([("x-grpc-test-echo-trailing-bin", echo.rstrip("="))] if echo is not None else [])

    def take(self, content):
        """Takes DATA. The messages that are whole."""
        self.rest += content
        found = []
        while len(self.rest) >= 5:
            length = int.from_bytes(self.rest[1:5], "big")
            if self.rest[0] == 1:
                status = UNIMPLEMENTED if self.fields.get("grpc-encoding", "identity") != "identity" else INTERNAL
                raise Refused(status, "compressed")
            if self.rest[0]:
                raise Refused(INTERNAL, "no such flag")
            if length > LONGEST:
                raise Refused(EXHAUSTED, "too long")
            if len(self.rest) < 5 + length:
                break
            found.append(self.rest[5:5 + length])
            self.rest = self.rest[5 + length:]
        return found

    def reply(self, message):
        self.out += wire.message(message)


class Intake:
    """A client's bytes, as python-h2 gets them."""

    def __init__(self):
        self.rest = b""
        self.preface = wire.PREFACE
        self.is_first = True
        self.is_in_block = False
        # How many bytes of a frame that is too long are still to come: python-h2 judges it by its head.
        self.left = 0

    def take(self, came):
        """What of these bytes, and those before, is to be read. It raises where the connection doesn't begin with SETTINGS."""
        if self.preface:
            count = min(len(came), len(self.preface))
            if came[:count] != self.preface[:count]:
                raise ProtocolError
            head, came, self.preface = came[:count], came[count:], self.preface[count:]
            return head + self.take(came) if came else head
        self.rest += came
        found = b""
        while True:
            if self.left:
                piece, self.rest = self.rest[:self.left], self.rest[self.left:]
                self.left -= len(piece)
                found += piece
            if len(self.rest) < 9:
                return found
            length = int.from_bytes(self.rest[:3], "big")
            if self.is_first and self.rest[3] != wire.SETTINGS:
                raise ProtocolError
            self.is_first = False
            if length > wire.LARGEST:
                self.left = 9 + length
                continue
            if len(self.rest) < 9 + length:
                return found
            piece, self.rest = self.rest[:9 + length], self.rest[9 + length:]
            found += self.changed(piece)

    def changed(self, frame):
        kind, stream = frame[3], int.from_bytes(frame[5:9], "big") & 0x7FFFFFFF
        if kind == wire.WINDOW_UPDATE and len(frame) == 13:
            return frame[:9] + bytes([frame[9] & 0x7F]) + frame[10:]
        if kind == wire.GOAWAY and stream == 0 and len(frame) >= 17 and not self.is_in_block:
            return b""
        if kind in (wire.HEADERS, wire.CONTINUATION):
            self.is_in_block = not frame[4] & wire.END_HEADERS
        return frame


# What no field name, and no value, may have (RFC 9113, section 8.2.1).
BAD_NAME = re.compile("[\x00-\x20A-Z\x7f-\uffff]|.:")
BAD_VALUE = re.compile("[\x00\r\n]|^[ \t]|[ \t]$")


def is_malformed(fields):
    return any(BAD_NAME.search(name) or BAD_VALUE.search(value) for name, value in fields)


class Connection:
    def __init__(self, device):
        self.device = device
        self.intake = Intake()
        self.h2 = H2Connection(H2Configuration(client_side=False, header_encoding="latin-1"))
        self.calls = {}

    def serve(self):
        self.h2.initiate_connection()
        self.write()
        while True:
            self.device.settimeout(TICK)
            try:
                came = self.device.recv(65_536)
            except TimeoutError:
                came = None
            if came == b"":
                return
            try:
                for event in self.h2.receive_data(self.intake.take(came)) if came else []:
                    self.take(event)
            except ProtocolError as error:
                if type(error) is ProtocolError:
                    self.h2.close_connection(ErrorCodes.PROTOCOL_ERROR)
                self.write()
                return
            self.end_late()
            self.send_all()
            self.write()

    def write(self):
        self.device.settimeout(10)
        self.device.sendall(self.h2.data_to_send())

    def take(self, event):
        stream = getattr(event, "stream_id", None)
        if isinstance(event, RequestReceived):
            self.begin(stream, Call(event.headers))
        elif isinstance(event, DataReceived):
            self.h2.acknowledge_received_data(event.flow_controlled_length, stream)
            self.go_on(stream, lambda call: self.requested(call, call.take(event.data)))
        elif isinstance(event, StreamEnded):
            self.go_on(stream, self.ended)
        elif isinstance(event, StreamReset):
            self.calls.pop(stream, None)

    def begin(self, stream, call):
        if is_malformed(call.fields.items()):
            self.h2.reset_stream(stream, ErrorCodes.PROTOCOL_ERROR)
            return
        self.calls[stream] = call
        if call.fields.get(":method") != "POST":
            self.refuse(stream, "405")
        elif not call.fields.get("content-type", "").startswith("application/grpc"):
            self.refuse(stream, "415")
        else:
            self.go_on(stream, self.begun)

    def refuse(self, stream, status):
        self.calls[stream].is_over = True
        self.h2.send_headers(stream, [(":status", status)], end_stream=True)

    def go_on(self, stream, step):
        """Does a step of a call, which may end it."""
        call = self.calls.get(stream)
        if call is None or call.is_over or call.trailers:
            return
        try:
            step(call)
        except Refused as refused:
            call.trailers = call.tail(refused.status, refused.text)

    def begun(self, call):
        service, _, method = call.path.rpartition("/")
        if service + "/" != wire.SERVICE or not hasattr(self, method):
            raise Refused(UNIMPLEMENTED, "no such method")
        if call.fields.get("grpc-encoding", "identity") != "identity":
            raise Refused(UNIMPLEMENTED, "no such encoding")
        call.method = getattr(self, method)
        timeout = call.fields.get("grpc-timeout")
        if timeout is not None:
            if not (1 < len(timeout) < 10 and timeout[:-1].isdigit() and timeout[-1] in UNITS):
                raise Refused(INTERNAL, "no such timeout")
            call.deadline = time.monotonic() + int(timeout[:-1]) * UNITS[timeout[-1]]

    @staticmethod
    def requested(call, requests):
        call.requests += requests
        if call.method.__name__ == "FullDuplexCall":
            for request in requests:
                call.method(call, request)

    @staticmethod
    def ended(call):
        if call.rest:
            raise Refused(INTERNAL, "a message is cut off")
        if call.method.__name__ in ("EmptyCall", "UnaryCall", "CacheableUnaryCall", "StreamingOutputCall"):
            if len(call.requests) != 1:
                raise Refused(INTERNAL, "one message is wanted")
        if call.method.__name__ != "FullDuplexCall":
            call.method(call)
        raise Refused(OK)

    @staticmethod
    def EmptyCall(call):
        call.reply(b"")

    @staticmethod
    def UnaryCall(call):
        asked_status(call.requests[0])
        size = fields_of(call.requests[0]).get(2, [0])[-1]
        if size > LONGEST:
            raise Refused(INVALID, "too long")
        call.reply(wire.response(size))

    @staticmethod
    def CacheableUnaryCall(call):
        Connection.UnaryCall(call)

    @staticmethod
    def StreamingOutputCall(call, request=None):
        request = call.requests[0] if request is None else request
        asked_status(request)
        for parameters in fields_of(request).get(2, []):
            size = fields_of(parameters).get(1, [0])[-1]
            if size > LONGEST:
                raise Refused(INVALID, "too long")
            call.reply(wire.response(size))

    @staticmethod
    def StreamingInputCall(call):
        sizes = (len(fields_of(fields_of(it).get(1, [b""])[-1]).get(2, [b""])[-1]) for it in call.requests)
        call.reply(wire.number_field(1, sum(sizes)))

    @staticmethod
    def FullDuplexCall(call, request):
        Connection.StreamingOutputCall(call, request)

    @staticmethod
    def HalfDuplexCall(call):
        for request in call.requests:
            Connection.StreamingOutputCall(call, request)

    def end_late(self):
        """Ends the calls whose deadlines have passed."""
        for call in self.calls.values():
            if call.deadline is not None and time.monotonic() >= call.deadline and not call.is_over:
                call.out = b""
                call.trailers = call.trailers or call.tail(DEADLINE, "too late")
                call.deadline = None

    def send_all(self):
        for stream, call in list(self.calls.items()):
            try:
                self.send(stream, call)
            except ProtocolError:
                self.calls.pop(stream, None)

    def send(self, stream, call):
        """Sends what there is of a call, as windows let it through."""
        if call.is_over or not call.out and not call.trailers:
            return
        if not call.has_head and not call.out and call.trailers[0][1] != "0":
            self.end(stream, call, GRPC + call.trailers)
            return
        if not call.has_head:
            call.has_head = True
            self.h2.send_headers(stream, call.head())
        while call.out:
            room = min(self.h2.local_flow_control_window(stream), self.h2.max_outbound_frame_size)
            if room <= 0:
                return
            piece, call.out = call.out[:room], call.out[room:]
            self.h2.send_data(stream, piece)
        if call.trailers:
            self.end(stream, call, call.trailers)

    def end(self, stream, call, fields):
        call.is_over = True
        self.h2.send_headers(stream, fields, end_stream=True)


def serve(device):
    with device:
        device.setsockopt(socket.IPPROTO_TCP, socket.TCP_NODELAY, 1)
        try:
            Connection(device).serve()
        except OSError:
            pass


def listen():
    """The port of such a server."""
    return wire.listen(serve)
