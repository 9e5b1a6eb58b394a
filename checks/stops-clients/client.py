#!/usr/bin/python3
"""client PORT OTHER COUNT: so many calls on grpcio, 32 at a time, to the server on PORT; where it is unavailable, to the one on OTHER.

Says `begun` once some were answered, and last how many were.
"""
import sys
import threading

import grpc

PATH = "/grpc.testing.TestService/EmptyCall"
AT_ONCE = 32
LIMIT = 30
OPTIONS = [("grpc.enable_http_proxy", 0), ("grpc.use_local_subchannel_pool", 1)]


def answered(channels):
    """Whether a call is answered, by the first of the servers that is available."""
    for channel in channels:
        try:
            return channel.unary_unary(PATH)(b"", timeout=LIMIT) == b""
        except grpc.RpcError as error:
            if error.code() != grpc.StatusCode.UNAVAILABLE:
                print(f"a call failed: {error.code()} {error.details()}", file=sys.stderr, flush=True)
                return False
    return False


def main():
    ports, count = sys.argv[1:3], int(sys.argv[3])
    channels = [grpc.insecure_channel(f"127.0.0.1:{port}", options=OPTIONS) for port in ports]
    lock, state = threading.Lock(), {"left": count, "answered": 0}

    def work():
        while True:
            with lock:
                if not state["left"]:
                    return
                state["left"] -= 1
            is_answered = answered(channels)
            with lock:
                state["answered"] += is_answered
                if state["answered"] == count // 4 and is_answered:
                    print("begun", flush=True)

    threads = [threading.Thread(target=work) for _ in range(AT_ONCE)]
    for thread in threads:
        thread.start()
    for thread in threads:
        thread.join()
    for channel in channels:
        channel.close()
    print(f"answered {state['answered']}", flush=True)


main()
