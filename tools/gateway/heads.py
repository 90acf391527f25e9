"""Connections, of which tornado reads requests, and what a request's head has to be.

Tornado 6.2 takes bare line ends, folded fields, `Content-Length: -5` and chunks of a length below 0, on which it turns
for ever. So each head is held against HTTP's grammar as it came, byte for byte, and none with chunks is taken.
"""
import re
import socket
import time
from typing import Any, Awaitable, Dict, List, Optional, Tuple, Union

from tornado.iostream import IOStream

MOST_HEAD, MOST_BODY, MOST_FIELDS = 16_384, 65_536, 100  # bytes, bytes, fields
READ_AT_ONCE = 16_384  # bytes
IDLE, HEAD, BODY, TAKEN = 90.0, 10.0, 10.0, 10.0  # seconds, for a first byte, the head, the body, to take an answer
NEVER = float("inf")
LINE = rb"[!#$%&'*+.^_`|~0-9A-Za-z-]+ [\x21-\x7e]+ HTTP/1\.[01]\r\n"
FIELDS = rb"(?:[!#$%&'*+.^_`|~0-9A-Za-z-]+:[\t\x20-\x7e\x80-\xff]*\r\n)*\r\n"
GRAMMAR = re.compile(LINE + FIELDS)
HOST = re.compile(r"[A-Za-z0-9._~!$&'()*+,;=%:\[\]-]*")
LENGTH = re.compile("[0-9]{1,10}")


class Stream(IOStream):
    """A connection. `due` is the moment by which its next step has to be done."""

    def __init__(self, connection: socket.socket) -> None:
        super().__init__(connection, max_buffer_size=8 * READ_AT_ONCE, read_chunk_size=READ_AT_ONCE)
        if connection.family != socket.AF_UNIX:
            connection.setsockopt(socket.IPPROTO_TCP, socket.TCP_NODELAY, 1)
        self.head = b""  # of the request that is read
        self.unread = 0  # bytes that came and aren't yet those of a whole head or body
        self.is_asking = self.is_parting = False
        self.due = time.monotonic() + IDLE

    def set_nodelay(self, value: bool) -> None:
        """It is so from the begin on."""

    def read_from_fd(self, buf: Union[bytearray, memoryview]) -> Optional[int]:
        came = super().read_from_fd(buf)
        if came:
            if self.unread == 0 and not self.is_asking:
                self.due = min(self.due, time.monotonic() + HEAD)
            self.unread += came
        return came

    def read_until_regex(self, regex: bytes, max_bytes: Optional[int] = None) -> "Awaitable[bytes]":
        """What tornado reads of a request first: its head, which is kept as it came."""
        self.head = b""
        future: Any = super().read_until_regex(regex, max_bytes)
        if future.done():
            self.keep(future)
        else:
            future.add_done_callback(self.keep)
        return future  # type: ignore[no-any-return]

    def keep(self, future: Any) -> None:
        if not future.cancelled() and future.exception() is None:
            self.head = future.result()

    def begin(self) -> None:
        """A request may come. Where some of it has come already, its head is due."""
        self.is_asking = False
        self.due = time.monotonic() + (HEAD if self.unread else IDLE)

    def has_head(self) -> None:
        """The head is there, and the body is due."""
        self.unread -= len(self.head)
        self.due = time.monotonic() + BODY

    def is_idle(self) -> bool:
        """Whether nothing of a request has come."""
        return not (self.is_asking or self.is_parting or self.unread)


def fault_of(head: bytes, fields: Dict[str, List[str]]) -> Optional[Tuple[int, str]]:
    """Why a request isn't read beyond its head, and the status; None where it is."""
    if len(head) > MOST_HEAD:
        return 431, f"a head has at most {MOST_HEAD} bytes"
    if GRAMMAR.fullmatch(head) is None:
        return 400, "the head isn't as HTTP has it"
    if head.count(b"\r\n") > MOST_FIELDS + 2:
        return 431, f"a head has at most {MOST_FIELDS} fields"
    hosts = fields.get("host", [])
    if len(hosts) > 1 or not hosts and head.partition(b"\r\n")[0].endswith(b"HTTP/1.1"):
        return 400, "one Host is due"
    if hosts and HOST.fullmatch(hosts[0]) is None:
        return 400, "the Host isn't as HTTP has it"
    if "transfer-encoding" in fields:
        return 411, "a body with Content-Length is due"
    return fault_of_length(fields.get("content-length", []))


def fault_of_length(lengths: List[str]) -> Optional[Tuple[int, str]]:
    """What is wrong with the length of a body, and the status."""
    if len(lengths) > 1 or lengths and LENGTH.fullmatch(lengths[0]) is None:
        return 400, "one Content-Length of digits is due"
    if lengths and int(lengths[0]) > MOST_BODY:
        return 413, f"a body has at most {MOST_BODY} bytes"
    return None
