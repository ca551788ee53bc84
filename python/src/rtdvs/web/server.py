"""Serves the page of a trace with an editor, to browsers on this machine only; each change calls the program.

A request has to come whole within a few seconds, however it drips. Where no more can be taken, the oldest one that
hasn't come gives up its place. A newer call of a page ends the program of the older one.
"""

import json
import re
import socket
import socketserver
import sys
from collections.abc import Mapping
from contextlib import suppress
from dataclasses import dataclass, field
from http import HTTPStatus
from http.server import BaseHTTPRequestHandler, HTTPServer
from io import BufferedReader, RawIOBase
from threading import Condition, Thread
from time import monotonic
from typing import Any

from rtdvs.engine import Engine, Stop
from rtdvs.errors import BadRequest
from rtdvs.web import answers, data
from rtdvs.web.example import Example, example_of, examples

HOST = "127.0.0.1"
PORT = 8017
HTTP_PORT = 80          # which addresses and Host leave out
MOST_BODY = 2**20       # bytes of a request
MOST_CALLS = 4          # at a time
MOST_REQUESTS = 64      # at a time; of more the oldest that hasn't come whole is refused, or else the newest
PATIENCE = 5.0          # seconds in which a request comes whole, that it waits for its turn, and that an answer takes
CLOSING = 1.0           # seconds that requests are waited for at the end
LONGEST_CALL = 10.0     # seconds
LONGEST_TRY = 300.0     # seconds, where `rt try` has to compile first
POLICY = ("default-src 'none'; script-src 'self'; style-src 'self'; connect-src 'self'; base-uri 'none'; "
          "form-action 'none'; frame-ancestors 'none'")
UNAVAILABLE = b"HTTP/1.0 503 Service Unavailable\r\nContent-Length: 0\r\nConnection: close\r\n\r\n"
"""An answer without a body."""


@dataclass(eq=False, slots=True)
class Visit:
    """A connection: whether its request has come whole, the page that asks, and what ends its calls."""

    connection: socket.socket
    stop: Stop = field(default_factory=Stop)
    has_come: bool = False
    page: str = ""

    def give_up(self) -> None:
        """Ends its calls, and its connection: its thread then waits for no more bytes. It waits for nothing."""
        self.stop.end()
        with suppress(OSError):
            self.connection.send(UNAVAILABLE, socket.MSG_DONTWAIT)
        with suppress(OSError):
            self.connection.shutdown(socket.SHUT_RDWR)


class PageServer(HTTPServer):
    """The page with its editor on 127.0.0.1; port 0 is a free one. Closing it ends all requests.

    Raises OSError with the port if that can't be had.
    """

    request_queue_size = 128

    def __init__(self, port: int, engine: Engine) -> None:
        self.engine = engine
        self.visits: list[Visit] = []  # the oldest first
        self.calls = 0  # that are being made
        self.change = Condition()  # of the visits and the calls
        self.files: Mapping[str, tuple[str, bytes]] = {
            "/": ("text/html", data.with_data({"examples": [*examples()]}).encode()),
            "/page.css": ("text/css", (data.WEB / "page.css").read_bytes()),
            **{f"/{name}": ("text/javascript", (data.WEB / name).read_bytes()) for name in data.SCRIPTS}}
        super().__init__((HOST, port), _Handler)

    @property
    def port(self) -> int:
        """The port that it listens on."""
        return int(self.server_address[1])

    def hosts(self) -> list[str]:
        """What a browser says of this host: the first is that of the address."""
        hosts = [f"{name}:{self.port}" for name in (HOST, "localhost")]
        return [HOST, "localhost", *hosts] if self.port == HTTP_PORT else hosts

    @property
    def address(self) -> str:
        """What a browser has to open."""
        return f"http://{self.hosts()[0]}/"

    def server_bind(self) -> None:
        """Binds without a look-up of the host's name."""
        place = f"port {self.server_address[1]} of {HOST}"
        try:
            socketserver.TCPServer.server_bind(self)
        except PermissionError as error:
            why = "only the superuser may listen on so low a port; choose one from 1024 on"
            raise PermissionError(error.errno, why, place) from None
        except OSError as error:
            raise OSError(error.errno, (error.strerror or "").lower(), place) from None

    def process_request(self, request: Any, client_address: Any) -> None:
        """Hands a request to a thread of its own. If there are too many, one that hasn't come whole is refused."""
        visit = Visit(request)
        refused = self._placed(visit)
        if refused is visit:
            _refuse_at_once(request)
            self.shutdown_request(request)
            return
        if refused:
            refused.give_up()
        try:
            Thread(target=self._visited, args=(visit, client_address), daemon=True).start()
        except RuntimeError:
            self._forget(visit)
            raise

    def _placed(self, visit: Visit) -> Visit | None:
        """Gives a visit a place. If none is free, gives the visit that loses its place: this one or another."""
        with self.change:
            loser = None
            if len(self.visits) >= MOST_REQUESTS:
                loser = next((each for each in self.visits if not each.has_come), visit)
            self.visits = [each for each in (*self.visits, visit) if each is not loser]
        return loser

    def _forget(self, visit: Visit) -> None:
        with self.change:
            self.visits = [each for each in self.visits if each is not visit]
            self.change.notify_all()

    def _visited(self, visit: Visit, client_address: Any) -> None:
        """Answers a request, in its thread."""
        try:
            _Handler(visit, client_address, self)
        except Exception:
            self.handle_error(visit.connection, client_address)
        finally:
            self.shutdown_request(visit.connection)
            self._forget(visit)

    def handle_error(self, request: Any, client_address: Any) -> None:
        """Says why a request has no thread, or no answer, but not that a browser has left."""
        fault = sys.exc_info()[1]
        if isinstance(fault, Exception) and not isinstance(fault, (ConnectionError, TimeoutError)):
            answers.failed(fault)

    def has_turn(self, visit: Visit, page: str) -> bool:
        """Waits until a call may be made; False if it isn't the visit's turn within the patience.

        An older call of the same page is ended, and gives up its turn.
        """
        with self.change:
            for other in self.visits if page else ():
                if other.page == page:
                    other.stop.end()
            visit.page = page
            self.change.notify_all()
            has_turn = self.change.wait_for(lambda: self.calls < MOST_CALLS or visit.stop.is_ended, PATIENCE)
            self.calls += has_turn
            return has_turn

    def turn_is_over(self) -> None:
        """Lets another call be made."""
        with self.change:
            self.calls -= 1
            self.change.notify_all()

    def server_close(self) -> None:
        """Ends all requests and their programs, whatever they wait for."""
        super().server_close()
        with self.change:
            for visit in self.visits:
                visit.give_up()
            self.change.notify_all()
            self.change.wait_for(lambda: not self.visits, CLOSING)


def _refuse_at_once(connection: socket.socket) -> None:
    """Answers a request that no thread takes. Its bytes are read first, or the answer would be lost."""
    connection.settimeout(0.05)
    with suppress(OSError):
        connection.recv(2**16)
    with suppress(OSError):
        connection.sendall(UNAVAILABLE)


class _Late(Exception):
    """A request hasn't come whole in time."""


class _Timely(RawIOBase):
    """The bytes of a connection, up to a time; then each reading raises _Late."""

    def __init__(self, connection: socket.socket, seconds: float) -> None:
        self.connection, self.end = connection, monotonic() + seconds

    def readable(self) -> bool:
        return True

    def readinto(self, buffer: Any) -> int:
        left = self.end - monotonic()
        if left <= 0:
            raise _Late
        self.connection.settimeout(left)
        try:
            return self.connection.recv_into(buffer)
        except TimeoutError:
            raise _Late from None


class _Handler(BaseHTTPRequestHandler):
    """Answers one request."""

    rfile: BufferedReader
    server: PageServer
    server_version, sys_version = "rtdvs", ""
    requestline = command = ""
    request_version = "HTTP/1.0"
    has_answered = False

    def __init__(self, visit: Visit, client_address: Any, server: PageServer) -> None:
        self.visit = visit
        super().__init__(visit.connection, client_address, server)

    def setup(self) -> None:
        super().setup()
        self.rfile = BufferedReader(_Timely(self.connection, PATIENCE))

    def handle(self) -> None:
        """Answers the request; also one that is late, and one by which something of ours breaks."""
        try:
            super().handle()
        except _Late:
            if not self.has_answered:
                self._refuse(HTTPStatus.REQUEST_TIMEOUT)
        except (ConnectionError, TimeoutError):
            raise
        except Exception as fault:
            if self.has_answered:
                raise
            self._answer(HTTPStatus.INTERNAL_SERVER_ERROR, answers.failed(fault))

    def do_GET(self) -> None:
        self.visit.has_come = True
        if not self._is_refused(0, (self.path not in self.server.files, HTTPStatus.NOT_FOUND)):
            self._send(HTTPStatus.OK, *self.server.files[self.path])

    def do_POST(self) -> None:
        length = self._length()
        if not self._is_refused(
                length, (self.path not in answers.ANSWERS, HTTPStatus.NOT_FOUND),
                (self.headers.get_content_type() != "application/json", HTTPStatus.UNSUPPORTED_MEDIA_TYPE),
                (length < 0, HTTPStatus.LENGTH_REQUIRED), (length > MOST_BODY, HTTPStatus.REQUEST_ENTITY_TOO_LARGE)):
            self._take(length)

    def _take(self, length: int) -> None:
        """Takes a body, and answers it."""
        body = self.rfile.read(length)
        self.visit.has_come = True
        if len(body) < length:
            self._refuse(HTTPStatus.BAD_REQUEST)
            return
        try:
            example = example_of(body)
        except BadRequest as fault:
            self._answer(HTTPStatus.BAD_REQUEST, {"refused": str(fault), "field": ""})
            return
        if self.server.has_turn(self.visit, example.single["page"]):
            self._answer(*self._called(example))
        else:
            self._refuse(HTTPStatus.SERVICE_UNAVAILABLE)

    def _called(self, example: Example) -> tuple[HTTPStatus, answers.Found]:
        """The answer of a call, or that a newer one has ended it."""
        stop = self.visit.stop
        try:
            with stop.of_calls():
                found = answers.answer_of(self.path, example, self.server.engine)
        finally:
            self.server.turn_is_over()
        if stop.is_ended:
            return HTTPStatus.CONFLICT, {"refused": "a newer call of the page ended this one", "field": ""}
        return found

    def _is_refused(self, length: int, *wrong: tuple[bool, HTTPStatus]) -> bool:
        """Refuses a request for another host or from a page of one, and by the first other thing that is wrong."""
        hosts = self.server.hosts()
        checks = (
            (self.headers.get_all("Host", []) not in [[host] for host in hosts], HTTPStatus.MISDIRECTED_REQUEST),
            (self.headers.get("Origin", f"http://{hosts[0]}") not in [f"http://{host}" for host in hosts],
             HTTPStatus.FORBIDDEN), *wrong)
        if refused := next((status for is_wrong, status in checks if is_wrong), None):
            is_elsewhere = refused is HTTPStatus.MISDIRECTED_REQUEST
            self._refuse(refused, length, f"open {self.server.address} instead" if is_elsewhere else "")
        return refused is not None

    def _length(self) -> int:
        """The bytes of the body; -1 if they aren't given."""
        given: list[str] = self.headers.get_all("Content-Length", [])
        return int(given[0]) if len(given) == 1 and re.fullmatch("[0-9]{1,18}", given[0]) else -1

    def _refuse(self, status: HTTPStatus, length: int = 0, line: str = "") -> None:
        """Refuses a request, and takes some of its body, so that the answer isn't lost."""
        self._answer(status, {"refused": line or status.phrase, "field": ""})
        left = min(length, 16 * MOST_BODY)
        try:
            while left > 0 and (part := self.rfile.read1(min(left, 2**16))):
                left -= len(part)
        except OSError:
            pass

    def _answer(self, status: HTTPStatus, found: answers.Found) -> None:
        self._send(status, "application/json", json.dumps(found).encode())

    def _send(self, status: HTTPStatus, kind: str, content: bytes) -> None:
        self.has_answered = True
        self.connection.settimeout(PATIENCE)
        self.send_response(status)
        for name, value in (
            ("Content-Type", f"{kind}; charset=utf-8"), ("Content-Length", str(len(content))),
            ("Content-Security-Policy", POLICY), ("X-Content-Type-Options", "nosniff"),
            ("Referrer-Policy", "no-referrer"), ("Cross-Origin-Resource-Policy", "same-origin"),
            ("Cache-Control", "no-store"), ("Connection", "close"),
        ):
            self.send_header(name, value)
        self.end_headers()
        self.wfile.write(content)
        self.wfile.flush()

    def send_error(self, code: int, message: str | None = None, explain: str | None = None) -> None:
        """Answers what is no request, or one of another method."""
        self._refuse(HTTPStatus(code), 0, message or "")

    def log_message(self, format: str, *args: Any) -> None:
        """Prints nothing."""
