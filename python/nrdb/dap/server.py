"""Serves editors one after the other, over the standard streams or on a loopback port. On a port, each editor must
send a launch with the token."""

import os
import socket
import sys
from collections.abc import Sequence
from contextlib import closing, suppress
from threading import current_thread, main_thread

from netrev.text.plain import plain

from .adapter import Adapter
from .admission import NAMED_BY, InvalidTokenError, token_for_a_port
from .handshakes import Connection, Handshakes
from .message_reader import Hearing, Reading, Source
from .view.messages import EditorStreams, MalformedMessageError, Request

LOOPBACK = "127.0.0.1"
DONE, USAGE, FAILED = 0, 2, 3


def serve(wire: EditorStreams, program: str, begun: Sequence[Request] = ()) -> int:
    """Serves one editor, whose first requests have been read, and returns the exit status."""
    try:
        Adapter(wire, source_of(wire), program).serve(begun)
    except MalformedMessageError as wrong:
        print(f"nrdb --dap: {plain(str(wrong))}", file=sys.stderr)
        return FAILED
    except OSError:  # the editor has gone
        return FAILED
    return DONE


def source_of(wire: EditorStreams) -> Source:
    """The source of the requests. If the main thread does the work, another thread reads them meanwhile. Otherwise they
    are read directly, because only the main thread can be interrupted."""
    if current_thread() is main_thread():
        return Hearing(wire)
    return Reading(wire)


def serve_streams(program: str) -> int:
    """Serves an editor over standard input and output, and returns the exit status."""
    reader = open(
        os.dup(sys.stdin.fileno()), "rb"
    )  # (a thread may still read from it at the end, which sys.stdin's own file doesn't allow)
    return serve(EditorStreams(reader, sys.stdout.buffer), program)


def serve_port(program: str, port: int) -> int:
    """Serves editors on a loopback port, one after the other, until Ctrl-C, and returns the exit status. Port 0
    means any free port. The port is printed, with the token that an editor must send."""
    try:
        token = token_for_a_port()
    except InvalidTokenError as why:
        print(f"nrdb --dap-port: {why}", file=sys.stderr)
        return USAGE
    with socket.socket() as listening:
        listening.setsockopt(socket.SOL_SOCKET, socket.SO_REUSEADDR, 1)
        try:
            listening.bind((LOOPBACK, port))
            listening.listen()
        except (OSError, OverflowError) as error:
            print(f"nrdb --dap-port {port}: {error}", file=sys.stderr)
            return FAILED
        print(f"nrdb --dap: editors are served at {LOOPBACK}:{listening.getsockname()[1]}", flush=True)
        print(f'nrdb --dap: a launch has "token": "{token}" ({NAMED_BY} names another one)', flush=True)
        handshakes = Handshakes(listening, token)
        with suppress(KeyboardInterrupt):
            while True:
                serve_connection(handshakes.next(), program)
    return DONE


def serve_connection(connection: Connection, program: str) -> None:
    """Serves the editor of a connection until it disconnects."""
    begun = [request for request in (connection.initialize, connection.launch) if request]
    with suppress(OSError), closing(connection):
        serve(connection.wire, program, begun)
