"""The gateway's HTTP: tornado reads requests and writes answers, on one loop; how many and how long is said here."""
import asyncio
import http
import os
import signal
import socket
import sys
import time
import traceback
from email.utils import formatdate
from typing import Any, Dict, List, Optional, Set, Tuple

from tornado.http1connection import HTTP1Connection, HTTP1ConnectionParameters, HTTP1ServerConnection
from tornado.httputil import HTTPHeaders, HTTPMessageDelegate, HTTPServerConnectionDelegate, ResponseStartLine
from tornado.iostream import StreamClosedError
from tornado.netutil import add_accept_handler

from gateway import calls, heads
from gateway.calls import Reply, Request
from gateway.counts import Counts
from gateway.heads import Stream
from gateway.node import Decided, Node, Told
from gateway.policy import Policy, Wrong, read
from gateway.questions import Bad, NoDecision, Question, Row
from tundelca import Door

MOST_CONNECTIONS = 512
LOOKS = 0.5  # seconds between two looks at what is due
FRESH = 1.0  # seconds between two looks at the policy file
ENDING = 5.0  # seconds, for what is under way at the end
PARTING = 1.0  # seconds in which a caller may take why it is refused
PARAMETERS = HTTP1ConnectionParameters(chunk_size=heads.READ_AT_ONCE, max_header_size=2 * heads.MOST_HEAD,
                                       max_body_size=heads.MOST_BODY)
REASONS = {status.value: status.phrase for status in http.HTTPStatus}
NAME = "tundelca-gateway"


def say(text: str) -> None:
    """A line of log."""
    shown = "".join(letter if letter.isprintable() else "?" for letter in text)
    print(f"{NAME}: {shown}", file=sys.stderr, flush=True)


class Exchange(HTTPMessageDelegate):
    """One request on a connection, and its answer."""

    def __init__(self, server: "Server", stream: Stream, connection: HTTP1Connection) -> None:
        self.server, self.stream, self.connection = server, stream, connection
        self.parts: List[bytes] = []
        self.request = Request("", "", {})
        self.id: Optional[str] = None
        self.since = 0.0

    def headers_received(self, start_line: Any, headers: HTTPHeaders) -> None:
        fields: Dict[str, List[str]] = {}
        for name, value in headers.get_all():
            fields.setdefault(name.lower(), []).append(value)
        self.request = Request(start_line.method, start_line.path, fields)
        fault = heads.fault_of(self.stream.head, fields)
        self.stream.has_head()
        if fault is not None:
            self.stream.is_parting = True
            self.connection.detach()
            self.server.part(self.stream, *fault)

    def data_received(self, chunk: bytes) -> None:
        self.stream.unread -= len(chunk)
        self.parts.append(chunk)

    def finish(self) -> None:
        self.request.body = b"".join(self.parts)
        self.since = time.monotonic()
        self.stream.is_asking, self.stream.due = True, heads.NEVER
        try:
            self.id = calls.request_id(self.request)
            answer = calls.answered(self.request, self.server)
        except Bad as bad:
            answer = calls.fault(bad.status, bad.why)
        if isinstance(answer, Reply):
            self.reply(answer)
        else:
            self.ask(answer)

    def on_connection_close(self) -> None:
        """The caller went away amid its request."""

    def ask(self, question: Question) -> None:
        """Has the node decide, where it has to be asked."""
        groups = question.groups()
        if not groups:
            self.decide(question, [], "")
        else:
            self.server.ask(groups, lambda decided, why: self.decide(question, decided, why))

    def decide(self, question: Question, decided: Optional[List[Decided]], why: str) -> None:
        """Answers by the node's decisions. A fault of this program is this connection's end, and no other's."""
        try:
            self.answer(question, decided, why)
        except Exception:
            say(f"a fault of the gateway: {traceback.format_exc()}")
            self.server.close(self.stream)

    def answer(self, question: Question, decided: Optional[List[Decided]], why: str) -> None:
        """Answers by the node's decisions; where there are none, with 503."""
        counts = self.server.counts
        try:
            if decided is None:
                raise NoDecision(why)
            answer = question.answer(decided)
        except NoDecision as none:
            counts.decisions["none"] += len(question.items)
            self.reply(calls.fault(503, str(none)))
            return
        if decided:
            counts.took(time.monotonic() - self.since)
        answers = answer["evaluations"] if question.is_many else [answer]
        allowed = sum(one["decision"] is True for one in answers)
        counts.decisions["allow"] += allowed
        counts.decisions["deny"] += len(answers) - allowed
        is_no = calls.is_forward(self.request) and not allowed
        self.reply(calls.told(403 if is_no else 200, answer))

    def reply(self, answer: Reply) -> None:
        """Writes the answer, and has the connection wait for another request or end."""
        fields = HTTPHeaders()
        fields["Content-Type"] = answer.kind
        fields["Content-Length"] = str(len(answer.body))
        fields["Cache-Control"] = "no-store"
        fields["Date"] = self.server.date
        for name, value in answer.more:
            fields[name] = value
        if self.id is not None:
            fields["X-Request-ID"] = self.id
        self.server.counts.requests[answer.status] += 1
        stream = self.stream
        stream.due, stream.is_asking = time.monotonic() + heads.TAKEN, False
        if self.server.is_ending:
            fields["Connection"] = "close"
        line = ResponseStartLine("HTTP/1.1", answer.status, REASONS[answer.status])
        written = self.connection.write_headers(line, fields, None if self.request.method == "HEAD" else answer.body)
        if self.server.is_ending:
            written.add_done_callback(lambda one: self.last(one, stream))
        self.connection.finish()

    @staticmethod
    def last(written: "asyncio.Future[None]", stream: Stream) -> None:
        """The last answer on the connection was written, or wasn't."""
        if not written.cancelled() and written.exception() is None:
            stream.close()


class Server(HTTPServerConnectionDelegate):
    """The gateway, from its start to its end."""

    def __init__(self, door: Door, path: str, policy: Policy, listener: socket.socket, url: str) -> None:
        self.door, self.path, self.policy, self.listener, self.url = door, path, policy, listener, url
        self.counts = Counts()
        self.streams: Dict[Stream, None] = {}  # that whose last request began first, or came first, comes first
        self.wrong: Optional[str] = None  # why the policy file is refused, where it is
        self.unfit: Optional[str] = None  # why the policy isn't one for this cluster, where it isn't
        self.seen: Optional[Tuple[int, ...]] = None
        self.date, self.is_ending = formatdate(usegmt=True), False
        self.tasks: Set["asyncio.Future[Any]"] = set()
        self.warned: Set[str] = set()  # whose share is nearly used up, as was told
        self.said: Optional[str] = ""  # the trouble that was told last
        self.node = Node(door, self.stand)

    def trouble(self) -> Optional[str]:
        """Why there are no decisions; None where there are."""
        return self.unfit or self.node.trouble()

    def soon(self) -> List[str]:
        """What of the node is nearly used up, as it tells."""
        return self.node.warnings

    def ask(self, groups: List[List[Row]], told: Told) -> None:
        """Has the node decide, where its word counts and it knows all owners of the policy."""
        if self.unfit is not None:
            told(None, self.unfit)
        else:
            self.node.ask(groups, told)

    # Connections.

    def accept(self, connection: socket.socket, _: Any) -> None:
        """Takes a connection. Where there are as many as may be, the one idle longest gives way."""
        if len(self.streams) >= MOST_CONNECTIONS:
            idle = next((stream for stream in self.streams if not stream.is_asking), None)
            if idle is None:
                connection.close()
                return
            self.counts.evicted += 1
            self.close(idle)
        stream = Stream(connection)
        self.streams[stream] = None
        HTTP1ServerConnection(stream, PARAMETERS).start_serving(self)

    def start_request(self, server_conn: Any, request_conn: Any) -> HTTPMessageDelegate:
        stream = server_conn.stream
        stream.begin()
        if self.streams.pop(stream, stream) is None:
            self.streams[stream] = None  # the last one now
        return Exchange(self, stream, request_conn)

    def on_close(self, server_conn: Any) -> None:
        if not server_conn.stream.is_parting:
            self.close(server_conn.stream)

    def close(self, stream: Stream) -> None:
        self.streams.pop(stream, None)
        stream.close()

    def part(self, stream: Stream, status: int, why: str) -> None:
        """Says why a request is refused, and ends its connection, of which nobody knows where the next one begins."""
        self.counts.requests[status] += 1
        body = calls.fault(status, why).body
        head = (f"HTTP/1.1 {status} {REASONS[status]}\r\nContent-Type: {calls.JSON}\r\nContent-Length: {len(body)}\r\n"
                f"Cache-Control: no-store\r\nDate: {self.date}\r\nConnection: close\r\n\r\n")
        stream.due = time.monotonic() + heads.TAKEN
        self.keep(asyncio.ensure_future(self.parted(stream, head.encode("ascii") + body)))

    async def parted(self, stream: Stream, answer: bytes) -> None:
        """Writes the answer, and reads for a while what comes, so that the caller has it before the end."""
        try:
            await asyncio.wait_for(stream.write(answer), PARTING)
            if not stream.closed():
                stream.socket.shutdown(socket.SHUT_WR)
                await asyncio.wait_for(self.passed_over(stream), PARTING)
        except (StreamClosedError, OSError, asyncio.TimeoutError):
            pass  # the caller went away first
        finally:
            self.close(stream)

    @staticmethod
    async def passed_over(stream: Stream) -> None:
        while True:
            await stream.read_bytes(heads.READ_AT_ONCE, partial=True)
            await asyncio.sleep(0)

    def keep(self, task: "asyncio.Future[Any]") -> None:
        self.tasks.add(task)
        task.add_done_callback(self.tasks.discard)

    async def sweep(self) -> None:
        """Ends the connections that are too slow."""
        while True:
            self.date, now = formatdate(usegmt=True), time.monotonic()
            for stream in [stream for stream in self.streams if stream.due < now]:
                self.counts.timed_out += 1
                self.close(stream)
            await asyncio.sleep(LOOKS)

    # How it stands.

    def metrics(self) -> str:
        """All counts, as text."""
        trouble = self.trouble()
        state = {"ready": float(trouble is None), "policy_wrong": float(self.wrong is not None),
                 "warnings": float(len(self.node.warnings)), "connections": float(len(self.streams)),
                 "node_rounds_total": float(self.node.rounds),
                 "node_rows_total": float(self.node.rows)}
        return self.counts.text(state, {"fingerprint": self.policy.fingerprint}, trouble)

    def stand(self) -> None:
        """The node was looked at, or the policy is another."""
        peers = self.node.status.get("peers")
        self.unfit = None
        if peers is not None:
            try:
                self.policy.fit(len(peers))
            except Wrong as wrong:
                self.unfit = f"the policy: {wrong}"
        trouble = self.trouble()
        if trouble != self.said:
            self.said = trouble
            say("decides" if trouble is None else f"no decisions: {trouble}")
        warned = {text.partition(" used ")[0]: text for text in self.node.warnings}
        for whose in warned.keys() - self.warned:
            say(f"soon: {warned[whose]}")
        self.warned = set(warned)

    async def reread(self) -> None:
        """Reads the policy file anew where it has changed. Where it is wrong, the policy before goes on."""
        loop = asyncio.get_running_loop()
        while True:
            await asyncio.sleep(FRESH)
            mark = mark_of(self.path)
            if mark == self.seen:
                continue
            self.seen = mark
            peers = self.node.status.get("peers")
            try:
                policy = await loop.run_in_executor(None, read, self.path, None if peers is None else len(peers))
            except Wrong as wrong:
                self.wrong = str(wrong)
                say(f"the policy file is refused, and that of before goes on: {wrong}")
                continue
            self.policy, self.wrong = policy, None
            say(f"the policy is now {policy.fingerprint}")
            self.stand()

    # Its end.

    async def run(self) -> int:
        """Serves until a signal comes, and answers then what is under way. The exit status: 1 where it can't go on."""
        over, loop = asyncio.Event(), asyncio.get_running_loop()
        for number in (signal.SIGTERM, signal.SIGINT):
            loop.add_signal_handler(number, over.set)
        refuse = add_accept_handler(self.listener, self.accept)
        loops = {asyncio.ensure_future(self.sweep()), asyncio.ensure_future(self.reread()), self.node.watching}
        for one in loops:  # which never end, but by a fault
            one.add_done_callback(lambda _: over.set())
        say(f"listens at {self.url}, asks the node at {self.door}, policy {self.policy.fingerprint} of {self.path}")
        await over.wait()
        self.is_ending = True
        refuse()
        self.listener.close()
        end = loop.time() + ENDING
        while self.streams and loop.time() < end:
            for stream in [stream for stream in self.streams if stream.is_idle() and not stream.writing()]:
                self.close(stream)
            await asyncio.sleep(0.02)
        faults = [one.exception() for one in loops if one.done()]
        say(f"ended by a fault of the gateway: {faults}" if faults else "ended")
        return 1 if faults else 0


def mark_of(path: str) -> Tuple[int, ...]:
    """What is another where a file was changed."""
    try:
        is_so = os.stat(path)
        return is_so.st_mtime_ns, is_so.st_ctime_ns, is_so.st_ino, is_so.st_size, is_so.st_mode
    except OSError as fault:
        return (fault.errno or 0,)


async def serve(door: Door, path: str, listener: socket.socket, url: str) -> int:
    """Serves at a listener, by a policy file. The exit status. Raises `Wrong` where the file is."""
    mark = mark_of(path)
    server = Server(door, path, read(path), listener, url)
    server.seen = mark
    return await server.run()
