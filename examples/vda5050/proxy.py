#!/usr/bin/env python3
"""Passes a client's connection on to the broker; a connection breaks where this ends.

Usage: proxy.py HOST:PORT HOST:PORT, where it listens, and the broker.
"""
import selectors
import socket
import sys
from typing import Sequence

sys.dont_write_bytecode = True
import beside  # noqa: E402, F401
from addresses import Address, address  # noqa: E402

CHUNK = 1 << 16


def connect(ears: socket.socket, broker: Address, selector: selectors.BaseSelector) -> None:
    """Joins who calls with the broker, unless that is away."""
    caller, _ = ears.accept()
    try:
        other = socket.create_connection(broker)
    except OSError:
        caller.close()
        return
    for near, far in ((caller, other), (other, caller)):
        near.setsockopt(socket.IPPROTO_TCP, socket.TCP_NODELAY, 1)
        selector.register(near, selectors.EVENT_READ, far)


def hand_on(near: socket.socket, far: socket.socket, selector: selectors.BaseSelector) -> None:
    """Sends on what has come; where one side ends, both do."""
    try:
        data = near.recv(CHUNK)
        far.sendall(data)
    except OSError:
        data = b""
    if not data:
        for side in (near, far):
            selector.unregister(side)
            side.close()


def serve(own: Address, broker: Address) -> None:
    with socket.socket(socket.AF_INET, socket.SOCK_STREAM) as ears, selectors.DefaultSelector() as selector:
        ears.setsockopt(socket.SOL_SOCKET, socket.SO_REUSEADDR, 1)
        ears.bind(own)
        ears.listen()
        selector.register(ears, selectors.EVENT_READ)
        while True:
            for key, _ in selector.select():
                if key.data is None:
                    connect(ears, broker, selector)
                elif key.fileobj.fileno() >= 0:
                    # Else its other side has closed it just now.
                    hand_on(key.fileobj, key.data, selector)


def main(words: Sequence[str]) -> None:
    own, broker = map(address, words)
    serve(own, broker)


if __name__ == "__main__":
    main(sys.argv[1:])
