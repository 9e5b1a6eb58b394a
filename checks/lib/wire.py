"""What the checks that speak HTTP/2 by hand share: frames (RFC 9113), literal header fields (RFC 7541), messages of a call
(gRPC over HTTP/2), fields of Protocol Buffers, and a socket that gives frames."""
import os
import re
import socket
import struct
import subprocess
import sys
import threading
import time

import packages

PREFACE = b"PRI * HTTP/2.0\r\n\r\nSM\r\n\r\n"
DATA, HEADERS, PRIORITY, RST_STREAM, SETTINGS, PUSH_PROMISE, PING, GOAWAY, WINDOW_UPDATE, CONTINUATION = range(10)
ACK = END_STREAM = 1
END_HEADERS = 4
PADDED = 8
WITH_PRIORITY = 32
WINDOW = 65_535
LARGEST = 16_384
# SETTINGS_INITIAL_WINDOW_SIZE.
INITIAL_WINDOW = 4
SERVICE = "/grpc.testing.TestService/"


def frame(kind, flags, stream, content=b""):
    return struct.pack(">I", len(content))[1:] + bytes([kind, flags]) + struct.pack(">I", stream) + content


def ends_stream(kind, flags, *_):
    """Whether a frame ends its stream by END_STREAM."""
    return kind in (DATA, HEADERS) and bool(flags & END_STREAM)


def is_ping_answer(kind, flags, *_):
    return kind == PING and bool(flags & ACK)


def settings(*pairs):
    return frame(SETTINGS, 0, 0, b"".join(struct.pack(">HI", *pair) for pair in pairs))


def data(stream, content=b"", end=False):
    return frame(DATA, END_STREAM if end else 0, stream, content)


def reset(stream, code=8):
    return frame(RST_STREAM, 0, stream, struct.pack(">I", code))


def credit(stream, increment):
    return frame(WINDOW_UPDATE, 0, stream, struct.pack(">I", increment))


def ping(number=0):
    return frame(PING, 0, 0, struct.pack(">Q", number))


def integer(value, prefix, first=0):
    """An integer behind the bits of `first` (RFC 7541, section 5.1)."""
    most = (1 << prefix) - 1
    if value < most:
        return bytes([first | value])
    return bytes([first | most]) + varint(value - most)


def literal(name, value):
    """A field without indexing and with its name spelled out."""
    name, value = name.encode(), value.encode() if isinstance(value, str) else value
    return b"\0" + integer(len(name), 7) + name + integer(len(value), 7) + value


def call_block(path, *fields):
    """The header block that opens a call: POST and http by their indices, the path behind its name's."""
    spelled = path.encode()
    rest = [("te", "trailers"), ("content-type", "application/grpc"), *fields]
    return b"\x83\x86\x04" + integer(len(spelled), 7) + spelled + b"".join(literal(*field) for field in rest)


def open_call(stream, method, *fields, end=False):
    return frame(HEADERS, END_HEADERS | (END_STREAM if end else 0), stream, call_block(SERVICE + method, *fields))


def message(content=b""):
    """A length-prefixed message."""
    return b"\0" + struct.pack(">I", len(content)) + content


def messages(joined):
    """The whole messages of joined DATA, and what is left behind them."""
    found = []
    while len(joined) >= 5:
        end = 5 + int.from_bytes(joined[1:5], "big")
        if joined[0] or len(joined) < end:
            break
        found.append(joined[5:end])
        joined = joined[end:]
    return found, joined


def varint(value):
    text = bytearray()
    while value > 127:
        text.append(value & 127 | 128)
        value >>= 7
    return bytes(text) + bytes([value])


def number_field(number, value):
    """A field that is a number; left out where it is 0."""
    return varint(number << 3) + varint(value) if value else b""


def bytes_field(number, content):
    return varint(number << 3 | 2) + varint(len(content)) + content


def fields_of(content):
    """The fields of a message: the number, and its values, an int or bytes each."""
    at, found = 0, {}

    def next_varint():
        nonlocal at
        value = shift = 0
        while True:
            byte = content[at]
            at += 1
            value |= (byte & 127) << shift
            shift += 7
            if byte < 128:
                return value

    while at < len(content):
        tag = next_varint()
        value = next_varint()
        if tag & 7 == 2:
            value, at = content[at:at + value], at + value
        found.setdefault(tag >> 3, []).append(value)
    return found


def body_length(request, number):
    """How many bytes the body of a request's payload has, which is the field of this number."""
    payload = fields_of(request).get(number, [b""])[-1]
    return len(fields_of(payload).get(2, [b""])[-1])


def response(size):
    """The message that holds a payload of so many zero bytes."""
    return bytes_field(1, bytes_field(2, bytes(size)) if size else b"")


def output_request(*sizes):
    """A request for a response of each of these sizes."""
    return b"".join(bytes_field(2, number_field(1, size)) for size in sizes)


def split(joined):
    """The whole frames at the beginning of these bytes, as (kind, flags, stream, content), and what is left."""
    frames = []
    at = 0
    while len(joined) - at >= 9:
        end = at + 9 + int.from_bytes(joined[at:at + 3], "big")
        if len(joined) < end:
            break
        stream = int.from_bytes(joined[at + 5:at + 9], "big") & 0x7FFFFFFF
        frames.append((joined[at + 3], joined[at + 4], stream, joined[at + 9:end]))
        at = end
    return frames, joined[at:]


class Peer:
    """A connection to a port of 127.0.0.1, by frames. What it waits for comes within its time, or it raises."""

    def __init__(self, port, limit, receive_buffer=None):
        self.socket = socket.socket()
        if receive_buffer:
            self.socket.setsockopt(socket.SOL_SOCKET, socket.SO_RCVBUF, receive_buffer)
        self.end = time.monotonic() + limit
        self.socket.settimeout(limit)
        self.socket.connect(("127.0.0.1", port))
        self.socket.setsockopt(socket.IPPROTO_TCP, socket.TCP_NODELAY, 1)
        self.rest = b""
        self.frames = []

    def send(self, *parts):
        self.socket.settimeout(max(0.001, self.end - time.monotonic()))
        self.socket.sendall(b"".join(parts))

    def read(self):
        """Reads what comes next. Whether something came."""
        self.socket.settimeout(max(0.001, self.end - time.monotonic()))
        try:
            came = self.socket.recv(65_536)
        except ConnectionError:
            return False
        frames, self.rest = split(self.rest + came)
        self.frames.extend(frames)
        return bool(came)

    def next(self):
        """The next frame, or None where no more comes."""
        while not self.frames:
            if not self.read():
                return None
        return self.frames.pop(0)

    def read_until(self, is_last):
        """All frames to the first of which this holds."""
        frames = []
        while True:
            found = self.next()
            if found is None:
                raise ConnectionError("the server ended the connection")
            frames.append(found)
            if is_last(*found):
                return frames

    def read_all(self):
        """All frames that still come."""
        while self.read():
            pass
        frames, self.frames = self.frames, []
        return frames

    def shut(self):
        """Sends nothing more."""
        self.socket.shutdown(socket.SHUT_WR)

    def abort(self):
        """Ends the connection at once, by a TCP reset."""
        self.socket.setsockopt(socket.SOL_SOCKET, socket.SO_LINGER, struct.pack("ii", 1, 0))
        self.socket.close()


class Server:
    """`interop serve`, which ends by itself behind so many connections, or never where none are named."""

    def __init__(self, program, connections, *options, **environment):
        # A port that was free a moment ago may be had by another program by now.
        for _ in range(8):
            with socket.socket() as free:
                free.bind(("127.0.0.1", 0))
                self.port = free.getsockname()[1]
            ends = ["--conns", str(connections)] if connections else []
            words = [program, "serve", "--port", str(self.port), *ends, *options]
            how = {"stdin": subprocess.DEVNULL, "stdout": subprocess.PIPE, "env": {**os.environ, **environment}}
            self.process = subprocess.Popen(words, **how)
            if self.process.stdout.readline() or self.ends(10) != 3:
                return
            self.close()

    def ends(self, limit):
        """Waits until all its connections have ended, and answers its exit status, None where it goes on."""
        try:
            return self.process.wait(limit)
        except subprocess.TimeoutExpired:
            return None

    def close(self):
        self.process.kill()
        self.process.wait()
        self.process.stdout.close()


def listen(serve):
    """Starts a server each of whose connections this serves, in a thread of its own, and answers its port."""
    listener = socket.create_server(("127.0.0.1", 0))

    def accept():
        while True:
            device, _ = listener.accept()
            threading.Thread(target=serve, args=(device,), daemon=True).start()

    threading.Thread(target=accept, daemon=True).start()
    return listener.getsockname()[1]


def port_told(name, seconds):
    """The port of a server that writes where it listens into this file, once the line is there."""
    end = time.monotonic() + seconds
    while time.monotonic() < end:
        with open(name, encoding="utf-8") as file:
            line = file.readline()
        if line.endswith("\n"):
            return int(line.rsplit(":", 1)[1])
        time.sleep(0.05)
    raise TimeoutError(f"no server has said within {seconds} s where it listens")


def program():
    """The program that is tried: the first argument, or the one that ./interop builds."""
    root = os.path.dirname(os.path.dirname(os.path.dirname(os.path.abspath(__file__))))
    path = sys.argv[1] if len(sys.argv) > 1 else os.path.join(root, "crates/interop/out/interop")
    if not os.access(path, os.X_OK):
        sys.exit(f"{os.path.basename(sys.argv[0])}: {path} is not built")
    return path


def without_sum(printed):
    """What a run of cases printed, without its last line, which sums up."""
    *lines, last = printed.splitlines(keepends=True) or [""]
    return "".join(lines) if re.fullmatch(r"[a-z]+: \d+ cases?, \d+ ok, \d+ failed.* in \d+ ms\n", last) else f"no sum: {printed}"


def has_hpack():
    """Whether python3-hpack is there, which is installed where it can be had."""
    try:
        import hpack  # noqa: F401
    except ImportError:
        return packages.install("python3-hpack")
    return True
