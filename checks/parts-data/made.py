#!/usr/bin/env python3
"""made.py FOLDER: writes connections that are too long to write by hand, or many of a kind, into a folder, as the other files of
this folder have them: NAME.hex and NAME.out, and where several answers are lawful NAME.or1, NAME.or2 .. with the others; NAME.has
where only a part of the answer is the same in every schedule. What is wanted follows from RFC 9113 and gRPC over HTTP/2, and the statuses and texts
that the server itself gives from docs/PROTOCOL.md.
"""
import os
import struct
import sys

HERE = os.path.dirname(os.path.abspath(__file__))
sys.path.insert(0, os.path.join(HERE, "..", "lib"))
import wire

BEGIN = wire.PREFACE + wire.settings()
CONNECTION = "stream 0\nsettings 3=64 6=16384\nsettings ack\n"
STREAMS = 4096
RESPONSE = ":status: 200\ncontent-type: application/grpc\n"


def block(fields, end=False):
    lines = fields.splitlines()
    return "".join(["headers end\n" if end else "headers\n", *(f"  {line}\n" for line in lines)])


def answer(joined=b"", status="grpc-status: 0", head=""):
    """A response with a head, DATA and trailers."""
    return block(RESPONSE + head) + (f"data {len(joined)} {joined.hex()}\n" if joined else "") + block(status, end=True)


def ended(code, text):
    """A response of trailers alone."""
    return block(f"{RESPONSE}grpc-status: {code}\ngrpc-message: {text}", end=True)


def call(method, *contents, stream=1, fields=(), end=True):
    """A call, its DATA in frames with these contents."""
    frames = [wire.data(stream, content, end and at == len(contents)) for at, content in enumerate(contents, 1)]
    return wire.open_call(stream, method, *fields, end=end and not contents) + b"".join(frames)


def connection(*calls):
    """Calls on one stream after another, each with its answer."""
    joined, text = BEGIN, CONNECTION
    for at, (given, wanted) in enumerate(calls):
        stream = 2 * at + 1
        joined += call(given[0], *given[1:-1], stream=stream, fields=given[-1])
        text += f"stream {stream}\n{wanted}"
    return joined, text + "ending 1\n"


# A request for a response without bytes, and for one of 1,000.
NONE = bytes.fromhex("1200")
THOUSAND = bytes.fromhex("120308e807")
EMPTY_REPLY = bytes.fromhex("00000000020a00")
LONG_REPLY = bytes.fromhex("00000003ee0aeb0712e807") + bytes(1000)


def replies_past_the_room_of_a_lane(count):
    given = ("StreamingOutputCall", wire.message(NONE * count), ())
    return connection((given, answer(EMPTY_REPLY * count)))


def replies_past_the_window():
    """No credit comes, so no trailers do."""
    written = (LONG_REPLY * 400)[:wire.WINDOW]
    text = f"stream 1\n{block(RESPONSE)}data {len(written)} {written.hex()}\n"
    return BEGIN + call("StreamingOutputCall", wire.message(THOUSAND * 400)), CONNECTION + text + "ending 1\n"


def a_byte_a_frame():
    """A message of 10,000 bytes with its prefix."""
    joined = wire.message(bytes.fromhex("0a88 4e 12 85 4e".replace(" ", "")) + bytes(9989))
    assert len(joined) == 10_000
    given = ("StreamingInputCall", *(joined[at:at + 1] for at in range(len(joined))), ())
    return connection((given, answer(bytes.fromhex("000000000308854e"))))


def the_last_payload_and_a_negative_size():
    request = bytes.fromhex("1a031201aa" "a00601" "1a031201bb" "10ffffffffffffffffff01")
    return connection((("UnaryCall", wire.message(request), ()), ended(3, "bad response size")))


def a_message_of_many_windows():
    """Its client waited for credit again and again."""
    joined = wire.message(wire.bytes_field(1, wire.bytes_field(2, bytes(2_000_000))))
    pieces = [joined[at:at + wire.LARGEST] for at in range(0, len(joined), wire.LARGEST)]
    return connection((("StreamingInputCall", *pieces, ()), answer(wire.message(wire.number_field(1, 2_000_000)))))


class Part(str):
    """Lines of an answer."""


def past_the_window():
    """DATA of two calls that take nothing, since their replies have no window, and together exceed the connection's window."""
    begun = b"".join(call("FullDuplexCall", 64 * wire.message(wire.output_request(9)), stream=it, end=False) for it in (1, 3))
    more = 3 * wire.data(1, bytes(wire.LARGEST)) + 2 * wire.data(3, bytes(wire.LARGEST))
    return wire.PREFACE + wire.settings((wire.INITIAL_WINDOW, 0)) + begun + more, Part("goaway 3 3\n")


def statuses():
    """What the server itself ends calls with, a call each."""
    empty, none = wire.message(), ()
    reply = wire.message(wire.response(1))
    too_large = wire.message(wire.number_field(2, 4_000_001))
    return connection(
        (("UnaryCall", empty, none), answer(EMPTY_REPLY)),
        (("EmptyCall", none), ended(13, "wrong number of messages")),
        (("EmptyCall", empty + empty, none), ended(13, "wrong number of messages")),
        (("EmptyCall", empty[:4], none), ended(13, "message cut at end")),
        (("UnaryCall", wire.message(b"\x08"), none), ended(13, "malformed message")),
        (("UnaryCall", too_large, none), ended(3, "bad response size")),
        (("UnaryCall", wire.message(b"\x08\x01"), none), ended(3, "bad response type")),
        (("UnaryCall", wire.message(b"\x42\x02\x08\x01"), none), ended(3, "message is not compressed")),
        (("EmptyCall", b"\x01" + empty[1:], none), ended(13, "compressed without encoding")),
        (("EmptyCall", b"\x01" + empty[1:], (("grpc-encoding", "gzip"),)), ended(12, "unsupported encoding")),
        (("EmptyCall", b"\x02" + empty[1:], none), ended(13, "bad flag")),
        (("EmptyCall", b"\0\0\x40\0\x01", none), ended(8, "message too long")),
        (("FullDuplexCall", empty, (("grpc-timeout", "0n"),)), ended(4, "deadline exceeded")),
        (("FullDuplexCall", empty, (("grpc-timeout", "1x"),)), ended(13, "bad timeout")),
        (("HalfDuplexCall", wire.message(wire.output_request(1)) * 2, none), answer(reply * 2)),
        (("NoCall", empty, none), ended(12, "unknown method")),
    )


def echoes():
    asked = (("x-grpc-test-echo-initial", "abc"), ("x-grpc-test-echo-trailing-bin", "q6ur"))
    head, status = "x-grpc-test-echo-initial: abc\n", "grpc-status: 0\nx-grpc-test-echo-trailing-bin: q6ur"
    return connection((("EmptyCall", wire.message(), asked), answer(bytes(5), status, head)))


def reset_before_its_message():
    """Nothing is said on a stream that was reset."""
    joined = BEGIN + call("EmptyCall", end=False) + wire.reset(1) + wire.data(1, wire.message(), end=True)
    return joined, CONNECTION + "ending 1\n"


def one_of(joined, *bodies):
    """A connection of one call, on whose stream one of these is written."""
    texts = [CONNECTION + (f"stream 1\n{body}" if body else "") + "ending 1\n" for body in bodies]
    return joined, texts


ONE = bytes.fromhex("00000000050a03120100")
CANCELLED = "grpc-status: 1\ngrpc-message: cancelled"


def data_behind_the_end():
    """STREAM_CLOSED, unless the call was answered before: then its stream is closed both ways."""
    head, joined = block(RESPONSE), BEGIN + call("EmptyCall", wire.message()) + wire.data(1, b"\0")
    begun = ["", head, f"{head}data 5 0000000000\n"]
    return one_of(joined, *(f"{it}reset 5\n" for it in begun), answer(bytes(5)))


def reset_behind_a_message():
    """The reply may be on its way, and the trailers of what is cancelled too."""
    joined = BEGIN + call("FullDuplexCall", wire.message(wire.output_request(1)), end=False) + wire.reset(1)
    head = block(RESPONSE)
    return one_of(joined, "", head, f"{head}data {len(ONE)} {ONE.hex()}\n", answer(ONE, CANCELLED))


def reset_inside_a_message():
    joined = BEGIN + call("FullDuplexCall", wire.message(wire.output_request(1))[:-1], end=False) + wire.reset(1)
    return one_of(joined, "", block(RESPONSE + CANCELLED, end=True))


def heads_of_no_call():
    path = b"\x04" + wire.integer(4, 7) + b"/a/b"
    get, post = b"\x82\x86" + path, b"\x83\x86" + path + wire.literal("content-type", "text/plain")
    flags = wire.END_HEADERS | wire.END_STREAM
    joined = BEGIN + wire.frame(wire.HEADERS, flags, 1, get) + wire.frame(wire.HEADERS, flags, 3, post)
    texts = [f"stream {stream}\n{block(f':status: {status}', end=True)}" for stream, status in ((1, 405), (3, 415))]
    return joined, CONNECTION + "".join(texts) + "ending 1\n"


def goaway(code, frames):
    """A connection error before any stream."""
    return BEGIN + frames, f"{CONNECTION}goaway 0 {code}\nending 3\n"


def past_the_last_stream():
    """As many calls as a client may open streams, all of them answered; most have no method, so that never more than 64 are live.
    GOAWAY without an error names the last. What comes on streams above it is dropped, and the connection goes on."""
    replied = (("EmptyCall", wire.message(), ()), answer(bytes(5)))
    unknown = (("NoCall", ()), ended(12, "unknown method"))
    joined, text = connection(*[replied] * 63, *[unknown] * (STREAMS - 64), replied)
    last = 2 * STREAMS - 1
    joined += call("EmptyCall", wire.message(), stream=last + 2) + call("NoCall", stream=last + 6) + wire.data(last + 4, b"\0") + wire.ping(7)
    return joined, text.replace(CONNECTION, f"{CONNECTION}goaway {last} 0\nping ack {7:016x}\n")


def made():
    yield "a_thousand_replies", replies_past_the_room_of_a_lane(1000)
    yield "five_thousand_replies", replies_past_the_room_of_a_lane(5000)
    yield "replies_past_the_window", replies_past_the_window()
    yield "a_byte_a_frame", a_byte_a_frame()
    yield "the_last_payload_and_a_negative_size", the_last_payload_and_a_negative_size()
    yield "a_message_of_many_windows", a_message_of_many_windows()
    yield "past_the_window", past_the_window()
    yield "statuses", statuses()
    yield "echoes", echoes()
    yield "reset_before_its_message", reset_before_its_message()
    yield "data_behind_the_end", data_behind_the_end()
    yield "reset_behind_a_message", reset_behind_a_message()
    yield "reset_inside_a_message", reset_inside_a_message()
    yield "heads_of_no_call", heads_of_no_call()
    yield "past_the_last_stream", past_the_last_stream()
    yield "ping_on_a_stream", goaway(1, wire.frame(wire.PING, 0, 1, bytes(8)))
    yield "ping_of_seven_bytes", goaway(6, wire.frame(wire.PING, 0, 0, bytes(7)))
    yield "credit_of_nothing", goaway(1, wire.credit(0, 0))
    yield "window_too_large", goaway(3, wire.settings((wire.INITIAL_WINDOW, 0x80000000)))
    yield "window_overflows", goaway(3, wire.credit(0, 0x7FFFFFFF))
    yield "continuation_of_nothing", goaway(1, wire.frame(wire.CONTINUATION, wire.END_HEADERS, 1, b"\x82"))
    yield "data_on_an_idle_stream", goaway(1, wire.data(1))
    yield "push_promise", goaway(1, wire.frame(wire.PUSH_PROMISE, wire.END_HEADERS, 1, struct.pack(">I", 2)))
    yield "what_is_ignored", (
        BEGIN + wire.frame(wire.PRIORITY, 0, 1, bytes(5)) + wire.frame(200, 255, 0, bytes(3)) + wire.settings((99, 1)),
        CONNECTION + "settings ack\nending 1\n",
    )
    yield "bad_preface", (b"GET / HTTP/1.1\r\n\r\n", "stream 0\nsettings 3=64 6=16384\ngoaway 0 1\nending 3\n")
    yield "nothing", (b"", "stream 0\nsettings 3=64 6=16384\nending 1\n")


def main():
    for name, (joined, text) in made():
        first, *others = [text] if isinstance(text, str) else text
        kind = "has" if isinstance(first, Part) else "out"
        files = [("hex", joined.hex() + "\n"), (kind, first), *((f"or{at}", other) for at, other in enumerate(others, 1))]
        for ending, content in files:
            with open(os.path.join(sys.argv[1], f"{name}.{ending}"), "w", encoding="utf-8") as file:
                file.write(content)


main()
