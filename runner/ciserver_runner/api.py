"""The server's three calls that a runner makes: a job request, the state of an attempt, a piece of its trace."""
from __future__ import annotations

import http.client
import json
import re
import socket
import ssl
import urllib.parse
from dataclasses import dataclass


class Unanswered(Exception):
    """No answer of the server came. Whether the request was handled isn't known, and it may be sent again."""


@dataclass
class Answer:
    status: int
    code: str  # of a refusal, as M6; else empty
    job_status: str
    size: int  # of the trace, as `Range` says
    body: bytes


class Api:
    """The server at an address. A call is one connection."""

    def __init__(self, url: str, ca_file: str = ""):
        parts = urllib.parse.urlsplit(url)
        self.host, self.port, self.path = parts.hostname, parts.port, parts.path.rstrip("/") + "/api/v4"
        self.context = ssl.create_default_context(cafile=ca_file or None) if parts.scheme == "https" else None

    def request_job(self, token: str) -> Answer:
        """Asks for a job, and waits as long as it takes: a grant whose reply nobody reads is lost to its job."""
        return self._call("POST", "/jobs/request", _json({"token": token}), {}, None)

    def put_state(self, attempt: int, token: str, said: dict, seconds: float) -> Answer:
        return self._call("PUT", f"/jobs/{attempt}", _json({"token": token, **said}), {}, seconds)

    def send_piece(self, attempt: int, token: str, start: int, piece: bytes, seconds: float) -> Answer:
        fields = {"JOB-TOKEN": token, "Content-Range": f"{start}-{start + len(piece) - 1}"}
        return self._call("PATCH", f"/jobs/{attempt}/trace", piece, fields, seconds)

    def _call(self, method: str, path: str, body: bytes, fields: dict, seconds: float | None) -> Answer:
        connection = self._connection(min(10, seconds or 10))
        try:
            connection.connect()
            _find_dead_peers(connection.sock)
            connection.sock.settimeout(seconds)
            connection.request(method, self.path + path, body, fields)
            reply = connection.getresponse()
            answer = _answer(reply, reply.read())
        except (OSError, http.client.HTTPException, ValueError) as fault:
            raise Unanswered(f"no answer from {self.host}: {str(fault) or type(fault).__name__}") from fault
        finally:
            connection.close()
        # A proxy speaks for a server that isn't there in words of its own, and M16 and M17 leave open what became of the request.
        taken = 200 <= answer.status < 300 and (answer.job_status or method == "POST")
        if answer.code in ("M16", "M17") or not (taken or answer.code):
            raise Unanswered(f"{self.host} answers {answer.status} {answer.code}".rstrip())
        return answer

    def _connection(self, seconds: float) -> http.client.HTTPConnection:
        if self.context:
            return http.client.HTTPSConnection(self.host, self.port, timeout=seconds, context=self.context)
        return http.client.HTTPConnection(self.host, self.port, timeout=seconds)


def _json(value: dict) -> bytes:
    return json.dumps(value).encode()


def _answer(reply: http.client.HTTPResponse, body: bytes) -> Answer:
    code = ""
    if reply.status >= 400:
        try:
            code = str(json.loads(body)["code"])
        except (ValueError, KeyError, TypeError):
            pass
        if not re.fullmatch(r"[HM]\d+", code):
            code = ""
    size = reply.headers.get("Range", "").removeprefix("0-")
    return Answer(reply.status, code, reply.headers.get("Job-Status", ""), int(size) if size.isdigit() else 0, body)


def _find_dead_peers(connection: socket.socket) -> None:
    """Has a connection whose peer went without a word end after a minute and a half."""
    connection.setsockopt(socket.SOL_SOCKET, socket.SO_KEEPALIVE, 1)
    for option, value in ((socket.TCP_KEEPIDLE, 30), (socket.TCP_KEEPINTVL, 15), (socket.TCP_KEEPCNT, 4), (socket.TCP_USER_TIMEOUT, 90_000)):
        connection.setsockopt(socket.IPPROTO_TCP, option, value)
