#!/usr/bin/python3
"""server PORT-FILE [FAULT]: grpc.testing.TestService on grpcio, on a free port of 127.0.0.1, whose number it writes to a file.

FAULT is something that it does wrong: sum, trailing, initial, text, size, one-more, empty, implemented.
"""
import os
import sys
import time
from concurrent import futures

import grpc

sys.dont_write_bytecode = True
sys.path.insert(0, os.path.join(os.path.dirname(os.path.abspath(__file__)), "..", "lib"))
import wire

FAULT = sys.argv[2] if len(sys.argv) > 2 else ""


def reply(size):
    """A response with a payload of so many zero bytes."""
    return wire.response(size + (FAULT == "size"))


def echo(context):
    asked = dict(context.invocation_metadata())
    initial, trailing = asked.get("x-grpc-test-echo-initial"), asked.get("x-grpc-test-echo-trailing-bin")
    if initial and FAULT != "initial":
        context.send_initial_metadata([("x-grpc-test-echo-initial", initial)])
    if trailing and FAULT != "trailing":
        context.set_trailing_metadata([("x-grpc-test-echo-trailing-bin", trailing)])


def judge(data, context):
    """Ends the call with the status that a request asks for."""
    status = wire.fields_of(data).get(7)
    if status:
        asked = wire.fields_of(status[0])
        code = {value.value[0]: value for value in grpc.StatusCode}[asked[1][0]]
        context.abort(code, asked[2][0].decode() + ("!" if FAULT == "text" else ""))


def empty(request, context):
    return b"\x08\x01" if FAULT == "empty" else b""


def unary(request, context):
    echo(context)
    judge(request, context)
    return reply(wire.fields_of(request).get(2, [0])[0])


def sum_up(requests, context):
    return wire.number_field(1, sum(wire.body_length(request, 1) for request in requests) + (FAULT == "sum"))


def replies(request, context):
    judge(request, context)
    for parameters in wire.fields_of(request).get(2, []):
        yield reply(wire.fields_of(parameters).get(1, [0])[0])


def stream(request, context):
    yield from replies(request, context)
    if FAULT == "one-more":
        yield reply(1)


def duplex(requests, context):
    echo(context)
    for request in requests:
        yield from replies(request, context)
    if FAULT == "one-more":
        yield reply(1)


METHODS = {
    "EmptyCall": grpc.unary_unary_rpc_method_handler(empty),
    "UnaryCall": grpc.unary_unary_rpc_method_handler(unary),
    "CacheableUnaryCall": grpc.unary_unary_rpc_method_handler(unary),
    "StreamingInputCall": grpc.stream_unary_rpc_method_handler(sum_up),
    "StreamingOutputCall": grpc.unary_stream_rpc_method_handler(stream),
    "FullDuplexCall": grpc.stream_stream_rpc_method_handler(duplex),
}
if FAULT == "implemented":
    METHODS["UnimplementedCall"] = grpc.unary_unary_rpc_method_handler(empty)

server = grpc.server(futures.ThreadPoolExecutor(max_workers=16))
server.add_generic_rpc_handlers([grpc.method_handlers_generic_handler("grpc.testing.TestService", METHODS)])
if FAULT == "implemented":
    server.add_generic_rpc_handlers([grpc.method_handlers_generic_handler("grpc.testing.UnimplementedService", METHODS)])
port = server.add_insecure_port("127.0.0.1:0")
server.start()
with open(sys.argv[1], "w") as file:
    file.write(f"{port}\n")
time.sleep(600)
