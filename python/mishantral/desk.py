"""A client of a served desk by HTTP (docs/HTTP.md).

    from mishantral import Desk

    desk = Desk("unix:/run/mishantral/desk.http")
    answer = desk.ask("claim 1 mill sign", why=True)
    if not answer:
        print(answer.name, answer.why)

Only the standard library is used. The answer to a refused, barred or wrong request is a value; an exception means that
the desk could not be reached, or that the call itself was wrong.
"""

import http.client
import json
import socket
import uuid
from typing import Any, Dict, Iterable, List, Optional, Sequence, Tuple, Union
from urllib.parse import quote, urlencode, urlsplit

from .errors import MishantralError

Json = Dict[str, Any]


class DeskError(MishantralError):
    """The desk could not be reached, or a call was refused as a whole."""

    def __init__(self, status: int, detail: str, problem: Optional[Json] = None) -> None:
        super().__init__(f"{status}: {detail}" if status else detail)
        #: The HTTP status; 0 if there was no answer.
        self.status = status
        #: The whole problem document (RFC 9457), if there is one.
        self.problem: Json = problem or {}


class DeskAnswer:
    """The answer to one request; true exactly when it was granted."""

    def __init__(self, told: Json) -> None:
        self.told = told
        self.status: int = told.get("status", 200)
        #: The reply's number; None if the request did not reach the engine.
        self.reply: Optional[int] = told.get("reply")
        self.name: str = told.get("name", told.get("title", ""))
        #: The number of the request in the journal.
        self.number: Optional[int] = told.get("number")
        #: The place of the rule that refused a claim, from 1 among those of its kind; 0 if none did.
        self.rule: int = told.get("rule", 0)
        #: Why it was refused, in words, if the caller asked for that; or what was wrong with it.
        self.why: Any = next((told[part] for part in ("why", "wrong", "barred", "not_done", "detail") if part in told), None)

    def __bool__(self) -> bool:
        return self.status == 200 and self.reply == 0

    def __repr__(self) -> str:
        return f"DeskAnswer({self.name}, status {self.status})"


class _UnixConnection(http.client.HTTPConnection):
    def __init__(self, path: str, timeout: float) -> None:
        super().__init__("localhost", timeout=timeout)
        self._path = path

    def connect(self) -> None:
        self.sock = socket.socket(socket.AF_UNIX, socket.SOCK_STREAM)
        self.sock.settimeout(self.timeout)
        self.sock.connect(self._path)


class Desk:
    """One desk of a server. `address` is `unix:PATH` or `http://HOST:PORT`; `headers` are sent with every call."""

    def __init__(self, address: str, desk: str = "desk", headers: Optional[Dict[str, str]] = None, timeout: float = 30) -> None:
        self._address, self._timeout = address, timeout
        self._headers = dict(headers or {})
        self._base = f"/v1/desks/{quote(desk, safe='')}"
        if not address.startswith("unix:") and urlsplit(address).scheme not in ("http", "https"):
            raise ValueError(f"{address}: an address is unix:PATH, http://HOST:PORT or https://HOST:PORT")

    # ---- requests

    def ask(self, request: str, why: bool = False, key: Optional[str] = None) -> DeskAnswer:
        """Makes one request. After a lost connection it is sent once more with the same key, so that it counts only once."""
        body = {"request": request, "key": key or uuid.uuid4().hex}
        path = f"{self._base}/requests" + ("?why=1" if why else "")
        try:
            status, told = self._call("POST", path, body)
        except DeskError as error:
            if error.status:
                raise
            status, told = self._call("POST", path, body)
        return DeskAnswer({"status": status, **told})

    def ask_all(self, requests: Iterable[str], why: bool = False) -> List[DeskAnswer]:
        """Makes many requests in one call; the answers are in the same order."""
        body = {"requests": [{"request": line, "key": uuid.uuid4().hex} for line in requests]}
        status, told = self._call("POST", f"{self._base}/requests" + ("?why=1" if why else ""), body)
        if status != 200:
            raise DeskError(status, str(told.get("detail", told)), told)
        replies = told.get("replies", [])
        return [DeskAnswer(one) for one in replies]

    # ---- questions

    def board(self) -> Json:
        """The open orders with their tasks: who holds or did each, and who may claim which one now."""
        return self._get("/board")

    def who(self, order: Union[int, str], task: Union[int, str]) -> Json:
        """Who may claim a task now, and why each other user may not."""
        return self._get(f"/orders/{quote(str(order), safe='')}/tasks/{quote(str(task), safe='')}/who")

    def finish(self, order: Union[int, str], clerks: Sequence[str] = ()) -> Json:
        """Whether the clerks who are signed in, or the given ones, can finish an order."""
        query = f"?{urlencode({'with': ','.join(clerks)})}" if clerks else ""
        return self._get(f"/orders/{quote(str(order), safe='')}/finish{query}")

    def holds(self, start: str, end: str, **options: str) -> Json:
        """How long orders waited between two tasks (docs/HOLDS.md)."""
        return self._get("/holds?" + urlencode({"from": start, "to": end, **options}))

    def may(self, user: Union[int, str], action: str, resource: str, kind: str = "task") -> bool:
        """An AuthZEN evaluation: whether the request would be granted now. It changes nothing."""
        body = {"subject": {"type": "user", "id": str(user)}, "action": {"name": action}, "resource": {"type": kind, "id": resource}}
        status, told = self._call("POST", f"{self._base}/access/v1/evaluation", body)
        if status != 200:
            raise DeskError(status, str(told.get("detail", told)), told)
        return bool(told["decision"])

    # ---- HTTP

    def _get(self, path: str) -> Json:
        status, told = self._call("GET", self._base + path, None)
        if status != 200:
            raise DeskError(status, str(told.get("detail", told)), told)
        return told

    def _connection(self) -> http.client.HTTPConnection:
        if self._address.startswith("unix:"):
            return _UnixConnection(self._address[5:], self._timeout)
        parts = urlsplit(self._address)
        kind = http.client.HTTPSConnection if parts.scheme == "https" else http.client.HTTPConnection
        return kind(parts.hostname or "", parts.port, timeout=self._timeout)

    def _call(self, method: str, path: str, body: Optional[Json]) -> Tuple[int, Json]:
        data = None if body is None else json.dumps(body).encode()
        headers = {"Accept": "application/json", **self._headers}
        if data is not None:
            headers["Content-Type"] = "application/json"
        connection = self._connection()
        try:
            connection.request(method, path, data, headers)
            response = connection.getresponse()
            text = response.read()
        except (OSError, http.client.HTTPException) as error:
            raise DeskError(0, f"{self._address}: {error}") from error
        finally:
            connection.close()
        try:
            told = json.loads(text) if text else {}
        except ValueError as error:
            raise DeskError(response.status, f"{self._address}: the answer is no JSON") from error
        return response.status, told if isinstance(told, dict) else {"value": told}
