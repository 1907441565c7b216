"""Frames on a stream socket: four bytes with a length, and as many bytes of JSON."""

import json
import struct


def send(sock, value):
    data = json.dumps(value).encode()
    sock.sendall(struct.pack('>I', len(data)) + data)


def receive(sock):
    """The value of the next frame. At the end of the stream it raises EOFError."""
    size, = struct.unpack('>I', exactly(sock, 4))
    return json.loads(exactly(sock, size))


def exactly(sock, size):
    data = b''
    while len(data) < size:
        more = sock.recv(size - len(data))
        if not more:
            raise EOFError
        data += more
    return data


def ask(sock, *request):
    """The answer to a request."""
    send(sock, request)
    return receive(sock)
