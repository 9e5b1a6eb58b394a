#!/usr/bin/python3
"""client PORT [CASE..]: the fourteen interop cases on grpcio, against the server on this port of 127.0.0.1.

Prints `case NAME ok`, or `case NAME failed` and why. Exits with 1 where a case failed.
"""
import os
import queue
import sys
import time

import grpc

sys.dont_write_bytecode = True
sys.path.insert(0, os.path.join(os.path.dirname(os.path.abspath(__file__)), "..", "lib"))
import wire

LIMIT = 30
INITIAL = ("x-grpc-test-echo-initial", "test_initial_metadata_value")
TRAILING = ("x-grpc-test-echo-trailing-bin", b"\xab\xab\xab")
SPECIAL = "\t\ntest with whitespace\r\nand Unicode BMP \u263a and non-BMP \U0001f608\t\n"


def payload(field, size):
    return wire.bytes_field(field, wire.bytes_field(2, bytes(size)))


def status(code, text):
    return wire.bytes_field(7, wire.number_field(1, code) + wire.bytes_field(2, text.encode()))


def simple_request(size, body):
    return wire.number_field(2, size) + payload(3, body)


def output_request(sizes, body):
    return wire.output_request(*sizes) + payload(3, body)


def need(holds, why):
    if not holds:
        raise ValueError(why)


def need_equal(what, got, wanted):
    need(got == wanted, f"{what}: {got!r}, and not {wanted!r}")


def need_response(got, size):
    need(got == wire.response(size), f"a response of {len(got)} bytes, and not one with a body of {size} zeros")


def need_end(call, code=grpc.StatusCode.OK, text=""):
    """The end of the call is waited for."""
    need_equal("status", call.code(), code)
    need_equal("message", call.details(), text)


def rest_of(call):
    """The responses that come still, whatever the status."""
    got = []
    try:
        got.extend(call)
    except grpc.RpcError:
        pass
    return got


class Requests:
    """Requests that are made while the call goes on."""

    def __init__(self):
        self.waiting = queue.Queue()

    def put(self, request):
        self.waiting.put(request)

    def end(self):
        self.waiting.put(None)

    def __iter__(self):
        return self

    def __next__(self):
        request = self.waiting.get()
        if request is None:
            raise StopIteration
        return request


class Stub:
    def __init__(self, channel):
        self.channel = channel

    def unary(self, method, request, service=wire.SERVICE, metadata=None):
        """The response, or None where the status isn't OK; and the call."""
        try:
            return self.channel.unary_unary(service + method).with_call(request, timeout=LIMIT, metadata=metadata)
        except grpc.RpcError as error:
            return None, error

    def duplex(self, requests, limit=LIMIT, metadata=None):
        return self.channel.stream_stream(wire.SERVICE + "FullDuplexCall")(requests, timeout=limit, metadata=metadata)


def empty_unary(stub):
    got, call = stub.unary("EmptyCall", b"")
    need_end(call)
    need_equal("response", got, b"")


def large_unary(stub):
    got, call = stub.unary("UnaryCall", simple_request(314159, 271828))
    need_end(call)
    need_response(got, 314159)


def client_streaming(stub):
    sizes = [27182, 8, 1828, 45904]
    method = stub.channel.stream_unary(wire.SERVICE + "StreamingInputCall")
    got = method(iter([payload(1, size) for size in sizes]), timeout=LIMIT)
    need_equal("response", got, wire.number_field(1, sum(sizes)))


def server_streaming(stub):
    sizes = [31415, 9, 2653, 58979]
    call = stub.channel.unary_stream(wire.SERVICE + "StreamingOutputCall")(output_request(sizes, 0), timeout=LIMIT)
    got = rest_of(call)
    need_end(call)
    need_equal("responses", len(got), len(sizes))
    for one, size in zip(got, sizes):
        need_response(one, size)


def ping_pong(stub):
    requests = Requests()
    call = stub.duplex(requests)
    for size, body in [(31415, 27182), (9, 8), (2653, 1828), (58979, 45904)]:
        requests.put(output_request([size], body))
        need_response(next(call), size)
    requests.end()
    need_equal("responses", rest_of(call), [])
    need_end(call)


def empty_stream(stub):
    call = stub.duplex(iter([]))
    need_equal("responses", rest_of(call), [])
    need_end(call)


def need_echoes(call):
    for (name, value), came in [(INITIAL, call.initial_metadata()), (TRAILING, call.trailing_metadata())]:
        need_equal(name, [it.value for it in came if it.key == name], [value])


def custom_metadata(stub):
    metadata = [INITIAL, TRAILING]
    got, call = stub.unary("UnaryCall", simple_request(314159, 271828), metadata=metadata)
    need_end(call)
    need_response(got, 314159)
    need_echoes(call)
    call = stub.duplex(iter([output_request([314159], 271828)]), metadata=metadata)
    got = rest_of(call)
    need_end(call)
    need_equal("responses", len(got), 1)
    need_response(got[0], 314159)
    need_echoes(call)


def status_code_and_message(stub):
    text = "test status message"
    _none, call = stub.unary("UnaryCall", status(2, text))
    need_end(call, grpc.StatusCode.UNKNOWN, text)
    call = stub.duplex(iter([status(2, text)]))
    need_equal("responses", rest_of(call), [])
    need_end(call, grpc.StatusCode.UNKNOWN, text)


def special_status_message(stub):
    _none, call = stub.unary("UnaryCall", status(2, SPECIAL))
    need_end(call, grpc.StatusCode.UNKNOWN, SPECIAL)


def unimplemented_method(stub):
    _none, call = stub.unary("UnimplementedCall", b"")
    need_equal("status", call.code(), grpc.StatusCode.UNIMPLEMENTED)


def unimplemented_service(stub):
    _none, call = stub.unary("UnimplementedCall", b"", service="/grpc.testing.UnimplementedService/")
    need_equal("status", call.code(), grpc.StatusCode.UNIMPLEMENTED)


def cancel_after_begin(stub):
    requests = Requests()
    call = stub.channel.stream_unary(wire.SERVICE + "StreamingInputCall").future(requests, timeout=LIMIT)
    time.sleep(0.02)
    call.cancel()
    requests.end()
    need_equal("status", call.code(), grpc.StatusCode.CANCELLED)


def cancel_after_first_response(stub):
    requests = Requests()
    call = stub.duplex(requests)
    requests.put(output_request([31415], 27182))
    need_response(next(call), 31415)
    call.cancel()
    requests.end()
    need_equal("responses", rest_of(call), [])
    need_equal("status", call.code(), grpc.StatusCode.CANCELLED)


def timeout_on_sleeping_server(stub):
    requests = Requests()
    requests.put(payload(3, 27182))
    call = stub.duplex(requests, limit=0.001)
    need_equal("responses", rest_of(call), [])
    requests.end()
    need_equal("status", call.code(), grpc.StatusCode.DEADLINE_EXCEEDED)


CASES = [
    empty_unary, large_unary, client_streaming, server_streaming, ping_pong, empty_stream, custom_metadata,
    status_code_and_message, special_status_message, unimplemented_method, unimplemented_service,
    cancel_after_begin, cancel_after_first_response, timeout_on_sleeping_server,
]


def main():
    port, names = sys.argv[1], sys.argv[2:]
    failed = 0
    options = [("grpc.enable_http_proxy", 0), ("grpc.use_local_subchannel_pool", 1)]
    with grpc.insecure_channel(f"127.0.0.1:{port}", options=options) as channel:
        for case in CASES:
            if names and case.__name__ not in names:
                continue
            try:
                case(Stub(channel))
                print(f"case {case.__name__} ok", flush=True)
            except (ValueError, StopIteration, grpc.RpcError) as error:
                failed += 1
                print(f"case {case.__name__} failed {error}", flush=True)
    return 1 if failed else 0


sys.exit(main())
