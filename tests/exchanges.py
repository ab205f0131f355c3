"""A request of bytes over a connection of its own: in pieces, cut, or with its reply left unread."""

import select
import socket
import struct

from events import quoted
from lines import Differs, Fault, Unread

SECONDS = 60


def send(peer, data, chunk):
    """Sends the bytes in pieces of so many. A server may have answered, and closed, before their end."""
    step = chunk or len(data) or 1
    try:
        for place in range(0, len(data), step):
            peer.sendall(data[place:place + step])
    except (BrokenPipeError, ConnectionResetError):
        pass


def read(peer, most=None):
    """What comes until the end, or so many bytes of it."""
    got = b''
    try:
        while most is None or len(got) < most:
            part = peer.recv(65536 if most is None else most - len(got))
            if not part:
                break
            got += part
    except ConnectionResetError:
        pass
    return got


def reset(peer):
    """Has the connection broken off, in the place of an end, as it is closed."""
    peer.setsockopt(socket.SOL_SOCKET, socket.SO_LINGER, struct.pack('ii', 1, 0))


def await_reply(peer):
    """Waits until a byte of the reply is there: then the request was handled."""
    if not select.select([peer], [], [], SECONDS)[0]:
        raise Fault('no reply comes')


def bytes_sent(exchange):
    """So much of the request is sent: all of it, or so many pieces."""
    pieces = exchange.way.get('end_read', exchange.way.get('fail_read'))
    if pieces is None:
        return bytes(exchange.request)
    return bytes(exchange.request[:pieces * (exchange.way['chunk'] or len(exchange.request))])


def read_of(exchange):
    """So many bytes of the reply are read: None where all."""
    pieces = exchange.way.get('fail_write')
    if pieces is None or (pieces and not exchange.way['chunk']):
        return None
    return pieces * (exchange.way['chunk'] or 0)


def received(world, exchange):
    """What comes back. Where the reply is lost so much of it is read, and then the connection is broken off."""
    with world.connect() as peer:
        peer.setsockopt(socket.IPPROTO_TCP, socket.TCP_NODELAY, 1)
        send(peer, bytes_sent(exchange), exchange.way['chunk'])
        if 'fail_read' in exchange.way:
            reset(peer)
            return b''
        if 'fail_write' in exchange.way:
            await_reply(peer)
            got = read(peer, read_of(exchange))
            reset(peer)
            return got
        try:
            peer.shutdown(socket.SHUT_WR)
        except OSError:
            pass  # the server has closed it already
        return read(peer)


# What must stand before a request of which this became.
NEEDED = {'read-failed': 'fail_read', 'write-failed': 'fail_write', 'ended': 'end_read'}


def carry_out(world, exchange):
    """Serves a request. Its reply must be the bytes that are wanted."""
    if exchange.served in NEEDED and NEEDED[exchange.served] not in exchange.way:
        raise Unread('a request of which nothing is cut')
    came = received(world, exchange)
    if came != exchange.reply:
        raise Differs(quoted(exchange.reply), quoted(came), exchange.line)
    return came
