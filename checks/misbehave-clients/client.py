#!/usr/bin/python3
"""client PORT [COUNT [SECONDS]]: calls on grpcio against the server on this port of 127.0.0.1, whatever comes of them.

A call of UnaryCall as in large_unary, then as many more at once (one, if nothing is said). Prints the status of each, and closes the
channel so many seconds (one) after the last.
"""
import os
import sys
import time

import grpc

sys.dont_write_bytecode = True
sys.path.insert(0, os.path.join(os.path.dirname(os.path.abspath(__file__)), "..", "lib"))
import wire

LIMIT = 25


REQUEST = wire.number_field(2, 314159) + wire.bytes_field(3, wire.bytes_field(2, bytes(271828)))
REPLY = wire.response(314159)


def main():
    port, count = sys.argv[1], int(sys.argv[2]) if len(sys.argv) > 2 else 1
    seconds = int(sys.argv[3]) if len(sys.argv) > 3 else 1
    options = [("grpc.enable_http_proxy", 0), ("grpc.use_local_subchannel_pool", 1)]

    def say(call):
        try:
            print("OK" if call.result() == REPLY else "OK with another reply", flush=True)
        except grpc.RpcError as error:
            print(error.code().name, error.details(), flush=True)

    with grpc.insecure_channel(f"127.0.0.1:{port}", options=options) as channel:
        method = channel.unary_unary("/grpc.testing.TestService/UnaryCall")
        say(method.future(REQUEST, timeout=LIMIT))
        time.sleep(0.1)
        for call in [method.future(REQUEST, timeout=LIMIT) for _ in range(count)]:
            say(call)
        time.sleep(seconds)


main()
