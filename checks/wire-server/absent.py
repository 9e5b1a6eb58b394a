"""Ports behind which there is no server: each answers a port, and what is to be kept while it is used."""
import contextlib
import socket
import threading

import wire


def refusing():
    """Nothing listens there."""
    with socket.create_server(("127.0.0.1", 0)) as free:
        return free.getsockname()[1], []


def dropping():
    """Something listens there, and takes no more connections: what asks for one gets no answer."""
    listener = socket.create_server(("127.0.0.1", 0), backlog=0)
    waiting = []
    for _ in range(4):
        device = socket.socket()
        device.setblocking(False)
        with contextlib.suppress(BlockingIOError):
            device.connect(listener.getsockname())
        waiting.append(device)
    return listener.getsockname()[1], [listener, *waiting]


def closing():
    """Each connection is ended at once."""
    return wire.listen(lambda device: device.close()), []


def leaving(port, count):
    """The server at `port`, which goes away once it has so many connections: those that it has go on."""
    listener = socket.create_server(("127.0.0.1", 0))
    found = listener.getsockname()[1]

    def carry(source, target):
        with contextlib.suppress(OSError):
            while piece := source.recv(65_536):
                target.sendall(piece)
        with contextlib.suppress(OSError):
            target.shutdown(socket.SHUT_WR)

    def accept():
        for left in reversed(range(count)):
            client, _ = listener.accept()
            if not left:
                listener.close()
            server = socket.create_connection(("127.0.0.1", port))
            for pair in [(client, server), (server, client)]:
                threading.Thread(target=carry, args=pair, daemon=True).start()

    threading.Thread(target=accept, daemon=True).start()
    return found, []
