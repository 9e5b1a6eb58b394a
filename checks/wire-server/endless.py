"""Servers that never stop sending: `SERVERS` has them, each a function that serves a connection.

They greet a client, and then send the same again and again, whatever comes, until the client has gone.
"""
import struct
import threading
import time

import wire

# Frames of one write: so a server is as fast as the client reads.
MANY = 64

HEAD = wire.frame(wire.HEADERS, wire.END_HEADERS, 1, wire.literal(":status", "200"))
INTERIM = wire.frame(wire.HEADERS, wire.END_HEADERS, 1, wire.literal(":status", "103"))


def read_all(device):
    """Reads what comes, so that the client can write."""
    try:
        while device.recv(65_536):
            pass
    except OSError:
        pass


def endless(first, again, pause=0.0):
    """A server that sends `first` behind its SETTINGS, and then `again` for ever."""

    def serve(device):
        with device:
            threading.Thread(target=read_all, args=(device,), daemon=True).start()
            try:
                device.sendall(wire.settings() + wire.frame(wire.SETTINGS, wire.ACK, 0) + first)
                while True:
                    device.sendall(again)
                    time.sleep(pause)
            except OSError:
                pass

    return serve


SERVERS = {
    "PING": endless(b"", wire.ping() * MANY),
    "SETTINGS": endless(b"", wire.settings() * MANY),
    "frames of an unknown type": endless(b"", wire.frame(22, 0, 0, b"x") * MANY),
    "WINDOW_UPDATE": endless(b"", wire.credit(1, 1) * MANY),
    "PRIORITY": endless(b"", wire.frame(wire.PRIORITY, 0, 1, bytes(5)) * MANY),
    "empty DATA": endless(HEAD, wire.data(1) * MANY),
    "interim heads": endless(b"", INTERIM * MANY),
    "empty CONTINUATION": endless(wire.frame(wire.HEADERS, 0, 1), wire.frame(wire.CONTINUATION, 0, 1) * MANY),
    "GOAWAY": endless(b"", wire.frame(wire.GOAWAY, 0, 0, struct.pack(">II", 1, 0)) * MANY),
    "a byte a second": endless(wire.frame(wire.HEADERS, wire.END_HEADERS, 1, bytes(200))[:9], b"\0", 1.0),
    "a frame a second": endless(b"", wire.ping(), 1.0),
}


def turning():
    """A server that says nothing but its SETTINGS over its first connection, and sends PINGs without an end over each later one."""
    served = []

    def serve(device):
        served.append(device)
        if len(served) > 1:
            SERVERS["PING"](device)
            return
        with device:
            device.sendall(wire.settings() + wire.frame(wire.SETTINGS, wire.ACK, 0))
            read_all(device)

    return serve
