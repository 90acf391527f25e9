"""The node that decides, over one connection, and whether its word counts, over another.

Questions that wait go to the node together; while they are under way the next gather. So a slow sync of the node is
waited for once, and answers come in the order in which was asked: what comes late, odd or unasked ends the connection,
and nobody gets another's answer. Where a connection that has brought answers comes to its end, as one does that gives
way to another client, what is under way goes once more over a new one: questions change nothing.
"""
import asyncio
import collections
import contextlib
import json
from dataclasses import dataclass, field
from typing import Any, Callable, Coroutine, Deque, Dict, Iterable, List, Optional, Set, Tuple

import tundelca
from gateway.questions import Row

PATIENCE = 2.0  # seconds for an answer of the node
FRESH = 1.0  # seconds between two looks at how the node stands
STALE = 4.0  # seconds after which it isn't known any more how the node stands
SOON = 0.25  # seconds between two while its word doesn't count
TRIES = 3  # where a node ends its connections one after another
A_LINE = tundelca.A_LINE  # rows
MOST_ROWS = 2_000  # that are under way at a time
LONGEST = tundelca.LONGEST
SILENT = "the node doesn't answer"
Decided = List[Dict[str, Any]]  # the decisions on the rows of one group
Told = Callable[[Optional[List[Decided]], str], None]  # hears the decisions, or None and why there are none


def trouble_of(status: Dict[str, Any]) -> Optional[str]:
    """Why a node's word doesn't count, by its answer to `status`; None where it does."""
    if "f" not in status:
        return "the node doesn't say how many nodes may lie"
    if tundelca.found_twice(status):
        return "the node was begun twice"
    if status["at"] >= status["limit"]:
        return "the node is full"
    heard = sum(peer is not None and peer["heard"] and peer["connected"] for peer in status["peers"])
    if heard < 2 * status["f"]:
        return f"the node hears too few: {heard} of the {2 * status['f']} that it needs"
    if status["journal"] is not None and not status["journal"]["sound"]:
        return "the node's disk has failed"
    return None


def words_of(fault: Exception) -> str:
    """Why there is no connection."""
    return str(fault) if isinstance(fault, tundelca.Stranger) else SILENT


async def connected(door: tundelca.Door, protocol: "Lines") -> None:
    """Connects to a node. An OSError where it isn't there, and a `Stranger` where another account listens at a socket.
    """
    loop = asyncio.get_running_loop()
    if door.is_port():
        await loop.create_connection(lambda: protocol, tundelca.LOOPBACK, int(door.address))
    else:
        await loop.create_unix_connection(lambda: protocol, sock=door.begin())


class Lines(asyncio.Protocol):
    """A connection on which lines come. `came` hears each, and `ended` once that it ended, unless it was `left`."""

    def __init__(self, longest: int, came: Callable[[str], None], ended: Callable[[str], None]) -> None:
        self.longest, self.came, self.ended = longest, came, ended
        self.text = b""
        self.transport: Optional[asyncio.Transport] = None

    def connection_made(self, transport: asyncio.BaseTransport) -> None:
        assert isinstance(transport, asyncio.Transport)
        self.transport = transport

    def data_received(self, data: bytes) -> None:
        *lines, self.text = (self.text + data).split(b"\n")
        for line in lines:
            if self.transport is not None:
                self.came(line.decode("ascii", "replace") if len(line) <= self.longest else "")
        if len(self.text) > self.longest and self.transport is not None:
            self.came("")

    def connection_lost(self, _: Optional[Exception]) -> None:
        if self.transport is not None:
            self.transport = None
            self.ended(SILENT)

    def send(self, lines: bytes) -> None:
        if self.transport is not None:
            self.transport.write(lines)

    def leave(self) -> None:
        """Ends the connection, of which nothing is heard any more."""
        if self.transport is not None:
            transport, self.transport = self.transport, None
            transport.abort()


@dataclass
class Asked:
    """A question: its groups of rows, who hears the decisions, since when it waits, and what is decided of it."""

    groups: List[List[Row]]
    told: Told
    since: float
    decided: List[Decided] = field(default_factory=list)


@dataclass
class Line:
    """A line that is under way, and whose the groups in it are, in their order."""

    request: Dict[str, Any]
    parts: List[Tuple[Asked, int]]


def lines_of(some: List[Asked]) -> List[Line]:
    """Lines that ask all this: no group stands in two."""
    lines: List[Line] = []
    for asked in some:
        for group in asked.groups:
            if not lines or len(lines[-1].request["asked"]) + len(group) > A_LINE:
                lines.append(Line({"op": "decide_all", "asked": []}, []))
            lines[-1].request["asked"] += group
            lines[-1].parts.append((asked, len(group)))
    return lines


def bytes_of(lines: Iterable[Line]) -> bytes:
    """What goes out for these lines."""
    return b"".join(json.dumps(line.request).encode("ascii") + b"\n" for line in lines)


class Node:
    """The node, as long as the gateway runs. `looked` is called where it was looked at, or its connection ended."""

    def __init__(self, door: tundelca.Door, looked: Callable[[], None]) -> None:
        self.door, self.looked = door, looked
        self.known: Optional[str] = "the node wasn't asked yet"  # why its word didn't count at the last look
        self.looked_at = 0.0
        self.status: Dict[str, Any] = {}
        self.warnings: List[str] = []  # of what is nine tenths used
        self.waiting: Deque[Asked] = collections.deque()
        self.under_way: Deque[Line] = collections.deque()
        self.link: Optional[Lines] = None
        self.has_answered = self.goes_again = False  # the connection has; what is under way went out once more
        self.is_busy = False
        self.late: Optional[asyncio.TimerHandle] = None
        self.wake = asyncio.Event()
        self.rounds = self.rows = 0
        self.watching = asyncio.ensure_future(self.watch())
        self.tasks: Set["asyncio.Future[None]"] = set()

    def trouble(self) -> Optional[str]:
        """Why the node's word doesn't count; None where it does."""
        if self.known is None and asyncio.get_running_loop().time() - self.looked_at > STALE:
            return "how the node stands isn't known"
        return self.known

    def ask(self, groups: List[List[Row]], told: Told) -> None:
        """Has the groups decided, each by one history. Where the node's word doesn't count there are no decisions."""
        trouble, loop = self.trouble(), asyncio.get_running_loop()
        if trouble is not None:
            told(None, trouble)
            return
        self.waiting.append(Asked(groups, told, loop.time()))
        if not self.is_busy:
            self.is_busy = True
            loop.call_soon(self.begin)  # when all that has come is read

    def begin(self) -> None:
        """Sends what waits."""
        trouble = self.trouble()
        if trouble is not None:
            self.fail(self.waiting, trouble)
        if not self.waiting:
            self.is_busy = False
        elif self.link is None:
            self.start(self.connect())
        else:
            self.send(self.link)

    def start(self, work: Coroutine[Any, Any, None]) -> None:
        """Has it done beside all else."""
        task = asyncio.ensure_future(work)
        self.tasks.add(task)
        task.add_done_callback(self.tasks.discard)

    def send(self, link: Lines) -> None:
        """Sends what has waited longest, in a round."""
        loop = asyncio.get_running_loop()
        some: List[Asked] = []
        count, now = 0, loop.time()
        while self.waiting and count < MOST_ROWS:
            asked = self.waiting.popleft()
            if now - asked.since > PATIENCE:
                asked.told(None, "others' questions took too long")
                continue
            some.append(asked)
            count += sum(map(len, asked.groups))
        lines = lines_of(some)
        if not lines:
            self.is_busy = False
            return
        self.rounds, self.rows = self.rounds + 1, self.rows + count
        self.under_way.extend(lines)
        self.late = loop.call_later(PATIENCE, self.end, "the node answers too late")
        link.send(bytes_of(lines))

    async def connect(self) -> None:
        """Makes the connection, and sends what is under way already, or what waits then."""
        link = Lines(LONGEST["decide_all"], self.came, self.lost)
        try:
            await asyncio.wait_for(connected(self.door, link), PATIENCE)
            if link.transport is None:
                raise ConnectionError
            self.link = link
            if self.under_way:
                link.send(bytes_of(self.under_way))
            else:
                self.begin()
        except (OSError, tundelca.Unreachable, asyncio.TimeoutError) as fault:
            link.leave()
            self.end(words_of(fault))

    def came(self, text: str) -> None:
        """A line has come: the decisions that are due next, or the connection ends."""
        if not self.under_way:
            return self.end("the node answers what nobody asked")
        line = self.under_way[0]
        answer = tundelca.read_answer(line.request, text)
        if answer is None:
            return self.end("the node answers what no node says")
        if "error" in answer:
            return self.end(f"the node refuses: {answer['error']}")
        self.under_way.popleft()
        self.has_answered = True
        first = 0
        for asked, size in line.parts:
            asked.decided.append(answer["decisions"][first:first + size])
            first += size
            if len(asked.decided) == len(asked.groups):
                asked.told(asked.decided, "")
        if not self.under_way:
            self.over()
            self.begin()

    def over(self) -> None:
        """The round is over."""
        self.goes_again = False
        if self.late is not None:
            self.late.cancel()
            self.late = None

    def lost(self, why: str) -> None:
        """The connection has come to its end, and the node is looked at. What is under way goes once more."""
        link, self.link = self.link, None
        has_answered, self.has_answered = self.has_answered, False
        if link is None:
            return  # it didn't stand yet, and `connect` sees that
        self.wake.set()
        if self.under_way and (self.goes_again or not has_answered):
            self.end(why)
        elif self.under_way:
            self.goes_again = True
            self.start(self.connect())

    def end(self, why: str) -> None:
        """Ends the connection. What is under way has no decision, and nothing has until the node was looked at."""
        self.over()
        if self.link is not None:
            self.link.leave()
            self.link = None
        self.has_answered = False
        lines = list(self.under_way)
        self.under_way.clear()
        self.stand(why)
        self.wake.set()
        of_lines = {id(asked): asked for line in lines for asked, _ in line.parts}
        self.fail(collections.deque(one for one in of_lines.values() if len(one.decided) < len(one.groups)), why)
        self.fail(self.waiting, why)
        self.is_busy = False

    @staticmethod
    def fail(some: Deque[Asked], why: str) -> None:
        """There are no decisions on these, whose questions are taken out."""
        while some:
            some.popleft().told(None, why)

    def stand(self, trouble: Optional[str]) -> None:
        """Notes why the node's word doesn't count, or that it does."""
        self.known = trouble
        self.looked()

    async def watch(self) -> None:
        """Asks the node each second how it stands, and sooner where its word doesn't count or its connection ended."""
        standing = Standing(self.door)
        while True:
            self.wake.clear()
            why: Optional[str] = SILENT
            begun = asyncio.get_running_loop().time()
            try:
                status = await standing.ask()
                if status is not None:
                    self.status, why = status, trouble_of(status)
                    self.warnings = tundelca.shares_told(status)
            except tundelca.Stranger as stranger:
                why = str(stranger)
            if not self.wake.is_set():
                self.looked_at = begun
                self.stand(why)
            await asyncio.sleep(SOON)
            if self.known is None:
                with contextlib.suppress(asyncio.TimeoutError):
                    await asyncio.wait_for(self.wake.wait(), FRESH - SOON)


class Standing:
    """A connection on which the node is asked how it stands."""

    def __init__(self, door: tundelca.Door) -> None:
        self.door = door
        self.link: Optional[Lines] = None
        self.has_ended = False  # the connection, while an answer was due
        self.answer: "Optional[asyncio.Future[Optional[Dict[str, Any]]]]" = None

    async def ask(self) -> Optional[Dict[str, Any]]:
        """What the node says of itself; None where it doesn't, or not in time, or what no node says. A `Stranger` may
        be there in its place. Where a kept connection has ended it is asked again over a new one, so often at most."""
        tries = TRIES if self.link is not None else 1
        for _ in range(tries):
            self.has_ended = False
            status = await self.asked_once()
            if status is not None or not self.has_ended:
                return status
        return None

    async def asked_once(self) -> Optional[Dict[str, Any]]:
        """What the node says on the connection that there is, or on a new one."""
        self.answer = asyncio.get_running_loop().create_future()
        try:
            return await asyncio.wait_for(self.asked(self.answer), PATIENCE)
        except (OSError, asyncio.TimeoutError):
            self.said(None)
            return None

    async def asked(self, answer: "asyncio.Future[Optional[Dict[str, Any]]]") -> Optional[Dict[str, Any]]:
        if self.link is None:
            link = Lines(LONGEST["status"], self.came, self.ended)
            await connected(self.door, link)
            self.link = link
        self.link.send(b'{"op":"status"}\n')
        return await answer

    def ended(self, _: str) -> None:
        """The connection has come to its end."""
        self.has_ended = True
        self.said(None)

    def came(self, text: str) -> None:
        status = tundelca.read_answer({"op": "status"}, text)
        self.said(None if status is None or "error" in status else status)

    def said(self, status: Optional[Dict[str, Any]]) -> None:
        """The node has said this. What nobody asked, or is odd, ends the connection."""
        is_due = self.answer is not None and not self.answer.done()
        if (status is None or not is_due) and self.link is not None:
            self.link.leave()
            self.link = None
        if is_due and self.answer is not None:
            self.answer.set_result(status)
