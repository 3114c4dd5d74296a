"""Clients that write octets to `counter serve`, and what they get; and what listens as a key holder does."""

import contextlib
import os
import signal
import socket
import subprocess

from modules.authority import Server

# how long a connection may take to be read, and as long again to be answered; what a slow machine may add
SECONDS = 20
MORE_SECONDS = 10


def answer(status, body, media="text/plain"):
    """The octets of an answer."""
    head = f"HTTP/1.1 {status}\r\nContent-Type: {media}\r\nContent-Length: {len(body)}\r\nConnection: close\r\n\r\n"
    return head.encode() + body


def reply(body):
    """Those of an answer with a TimeStampResp."""
    return answer("200 OK", body, "application/timestamp-reply")


@contextlib.contextmanager
def stopped(server):
    """Meanwhile the process is stopped: the system alone takes connections, and what is written into them."""
    server.process.send_signal(signal.SIGSTOP)
    os.waitid(os.P_PID, server.process.pid, os.WSTOPPED)
    try:
        yield
    finally:
        server.process.send_signal(signal.SIGCONT)


def connection(server, room=None):
    """A connection, which takes few octets that nobody reads, if so much room is named, or the least that there is."""
    is_tcp = isinstance(server, Server)
    peer = socket.socket(socket.AF_INET if is_tcp else socket.AF_UNIX)
    peer.settimeout(SECONDS + MORE_SECONDS)
    if room:
        peer.setsockopt(socket.SOL_SOCKET, socket.SO_RCVBUF, room)
    peer.connect(("127.0.0.1", server.port) if is_tcp else server.path)
    if is_tcp:
        peer.setsockopt(socket.IPPROTO_TCP, socket.TCP_NODELAY, 1)
    return peer


def client(server, octets=b"", is_ended=False, room=None):
    """A connection into which octets are written, and whose side is ended then if that is told."""
    peer = connection(server, room)
    peer.sendall(octets)
    if is_ended:
        peer.shutdown(socket.SHUT_WR)
    return peer


def received(peer, may_be_reset=False):
    """All that comes up to the end, and behind it what goes wrong then."""
    octets = b""
    try:
        while piece := peer.recv(65536):
            octets += piece
    except OSError as error:
        if not (may_be_reset and isinstance(error, ConnectionError)):
            octets += f" and {error}".encode()
    return octets


def ended(server):
    """The program's status once it has ended by itself, and what it wrote; no status if it goes on."""
    with contextlib.suppress(subprocess.TimeoutExpired):
        server.process.wait(SECONDS + MORE_SECONDS)
    return server.process.returncode, server.kill()


def key_holder(path=None):
    """What listens as a key holder does, at the path of a Unix socket if one is named; and its address."""
    holder = socket.create_server(path, family=socket.AF_UNIX) if path else socket.create_server(("127.0.0.1", 0))
    holder.settimeout(MORE_SECONDS)
    return holder, f"unix:{path}" if path else f"127.0.0.1:{holder.getsockname()[1]}"
