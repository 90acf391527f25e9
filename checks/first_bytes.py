#!/usr/bin/env python3
"""What a node takes for no client of its own, by the first bytes of a connection: first_bytes.py [CHECKOUT]

A page in a browser, a TLS client, a mail client or a proxy that reaches the port for clients sends bytes that may hold
whole lines. Each opening here holds some: one that would stop the node, and one that would assign a role to user 666.
run_all runs these cases among its own.
"""
import contextlib
import socket
import struct
import time

import runner
from cluster import PATIENCE, ROLE, Cluster
from runner import Case, judge

SOON = 5  # seconds in which one byte is answered; at rest it takes a millisecond
THIEF = 666
J1, J2 = b'{"error":"J1 NotJson"}\n', b'{"error":"J2 NotObject"}\n'
STOP = b'\n{"op":"stop"}\n'
LINES = b'\n{"op":"assign","user":%d,"role":%d}' % (THIEF, ROLE) + STOP
REACH, REACHED = b'{"op":"reach","owner":0}\n', b'{"reach":0}\n'
LONG = 5_000  # bytes: more than a line may have
BODY = 1_000_000  # bytes: more than is read at once, and than sockets hold
KNOWN = ["GET", "HEAD", "POST", "PUT", "OPTIONS"]  # what role_daemon knows of HTTP
METHODS = [*KNOWN, "PATCH", "DELETE", "TRACE", "CONNECT", "PROPFIND", "QUERY", "get", "STOP", "M", "!", "~", "op"]


def request(method, body=LINES):
    """An HTTP request, as a page's `fetch` sends it."""
    head = f"{method} / HTTP/1.1\r\nHost: rebound.example\r\nOrigin: http://rebound.example\r\nContent-Type: text/plain"
    return f"{head}\r\nContent-Length: {len(body)}\r\n\r\n".encode() + body


def counted(form, data):
    """Bytes behind their number, as TLS has them."""
    number = struct.pack(">I", len(data))
    return number[-form:] + data


def extension(kind, data):
    return struct.pack(">H", kind) + counted(2, data)


def ticket_of(minor, line):
    """A session ticket with a line in it: from TLS 1.3 on, minor version 4, an identity of a shared key."""
    if minor < 4:
        return extension(35, line)
    identities = counted(2, counted(2, line) + bytes(4))
    return extension(41, identities + counted(2, counted(1, bytes(32))))


def hello(minor, place):
    """A TLS client's hello of version 1.0 to 1.3 (minor 1 to 4) that holds a line at this place."""
    held = lambda name, other: STOP if place == name else other
    name = counted(2, b"\0" + counted(2, held("server name", b"node.example")))
    protocols = counted(2, counted(1, held("protocol", b"http/1.1")))
    more = extension(0, name) + extension(16, protocols)
    if minor == 4:
        more += extension(10, counted(2, b"\0\x1d")) + extension(13, counted(2, b"\4\3\x08\4"))
        more += extension(43, counted(1, b"\3\4\3\3")) + extension(45, counted(1, b"\1"))
        more += extension(51, counted(2, struct.pack(">H", 29) + counted(2, bytes(range(32)))))
    if place == "ticket":
        more += ticket_of(minor, STOP)
    text = bytes([3, min(minor, 3)]) + bytes(range(100, 132)) + counted(1, held("session id", bytes(range(32, 64))))
    text += counted(2, b"\x13\1\xc0\x2f\0\x2f") + counted(1, b"\0") + counted(2, more)
    return b"\x16\3\1" + counted(2, b"\1" + counted(3, text))


def openings():
    """What others than clients may send first, each with lines in it, by name."""
    sent = {f"HTTP {method}": request(method) for method in METHODS}
    sent["HTTP/2"] = b"PRI * HTTP/2.0\r\n\r\nSM\r\n\r\n" + LINES
    sent["a long request"] = request("PATCH", LINES + b"x" * BODY)
    for minor in (1, 2, 3, 4):
        for place in ("ticket", "session id", "server name", "protocol"):
            sent[f"TLS 1.{minor - 1}, {place}"] = hello(minor, place)
    sent["SSH"] = b"SSH-2.0-OpenSSH_9.2\r\n" + LINES
    sent["SMTP"] = b"EHLO node.example\r\nMAIL FROM:<a@node.example>\r\nDATA\r\n" + LINES
    sent["PROXY 1"] = b"PROXY TCP4 192.0.2.1 192.0.2.2 56324 7400\r\n" + LINES
    addresses = bytes([192, 0, 2, 1, 192, 0, 2, 2]) + struct.pack(">HH", 56_324, 7_400)
    sent["PROXY 2"] = b"\r\n\r\n\0\r\nQUIT\n\x21\x11" + counted(2, addresses) + LINES
    for name, first in [("a blank", b" "), ("a tab", b"\t"), ("an empty line", b"\n"), ("CR LF", b"\r\n"),
                        ("a list", b"[1]"), ("nope", b"nope"), ("a text", b'"op"'),
                        ("a byte order mark", b"\xef\xbb\xbf"), ("too long a line", b"x" * LONG)]:
        sent[name] = first + LINES
    sent["a blank, and a line"] = b" " + LINES[1:]
    return sent


class Alone(Cluster):
    """A node alone, in memory, of which a client sees whether anything was obeyed."""

    def __init__(self, program):
        super().__init__(program, waits=True)

    def came_of(self, *parts, pause=0.0):
        """All that comes of a connection on which these are sent, up to its end. Where the node doesn't take a part any
        more, what it said before still has to come."""
        came = b""
        with self.connect(0) as one:
            one.setsockopt(socket.IPPROTO_TCP, socket.TCP_NODELAY, 1)
            with contextlib.suppress(ConnectionError):
                for part in parts:
                    one.sendall(part)
                    time.sleep(pause)
            with contextlib.suppress(OSError):  # it has ended
                one.shutdown(socket.SHUT_WR)
            with contextlib.suppress(ConnectionError):
                while more := one.recv(65_536):
                    came += more
        return came

    def obeyed(self):
        """What was obeyed of the lines."""
        if self.running[0].poll() is not None:
            return "stop"
        with self.client(0) as node:
            return "assign" if node.listing("assigned_users", role=ROLE) else None

    def judge(self, name, came, due):
        """Whether this came, and nothing was obeyed."""
        judge(came == due, f"{name}: due {due!r}, came {came[:200]!r}")
        obeyed = self.obeyed()
        judge(obeyed is None, f"{name}: the {obeyed} was obeyed")


def none_is_obeyed(keeper):
    """What is no client's is answered once, `J1`, and nothing behind it is read."""
    sent = openings()
    with Alone(keeper) as node:
        for name, opening in sent.items():
            node.judge(name, node.came_of(opening), J1)
    return f"{len(sent)} openings"


def any_other_byte(keeper):
    """Whatever the first byte is: `{` alone begins a client's line."""
    with Alone(keeper) as node:
        for byte in range(256):
            first = bytes([byte])
            if first != b"{":
                came = node.came_of(first + STOP)
                judge(came == J1, f"first byte {byte}: came {came!r}")
        node.judge("a brace", node.came_of(b"{\n" + REACH), J1 + REACHED)
    return "255 bytes"


def in_parts(keeper):
    """However they come: cut at each byte, byte by byte, and the first byte alone, which is answered at once."""
    sent = openings()
    with Alone(keeper) as node:
        cuts = 0
        for name in ("HTTP PATCH", "TLS 1.2, ticket", "PROXY 2"):
            for at in range(1, len(sent[name])):
                came = node.came_of(sent[name][:at], sent[name][at:])
                judge(came == J1, f"{name}, cut at {at}: came {came!r}")
                cuts += 1
            node.judge(f"{name}, cut", J1, J1)
            slowly = [bytes([byte]) for byte in sent[name]]
            node.judge(f"{name}, slowly", node.came_of(*slowly, pause=0.001), J1)
        for first in (b"P", b"\x16", b"\n", b" "):
            with node.connect(0, SOON) as one:
                one.sendall(first)
                came = b""
                while more := one.recv(4096):
                    came += more
                judge(came == J1, f"{first!r} alone: came {came!r}")
    return f"{cuts} cuts"


def no_byte(program):
    """A connection that ends without a byte has no answer, as that of a probe."""
    with Alone(program) as node:
        node.judge("no byte", node.came_of(), b"")
        for _ in range(20):
            node.connect(0).close()
        node.judge("a reach", node.came_of(REACH), REACHED)
    return "no answer"


def later_lines(program):
    """A client's first line may come in parts, and each later line has its answer, whatever it is."""
    rows = [(REACH, REACHED), (b"\n", J1), (b"[1]\n", J2), (b"nope\n", J1), (b" " + REACH, REACHED),
            (b"GET / HTTP/1.1\r\n", J1), (b"PATCH / HTTP/1.1\r\n", J1), (b"\x16\3\1\n", J1), (b"x" * LONG + b"\n", J1),
            (b"{" + b"x" * LONG + b"\n", J1), (b"{}\n", b'{"error":"J3 NoOp"}\n'), (REACH, REACHED)]
    text, due = (b"".join(parts) for parts in zip(*rows))
    with Alone(program) as node:
        node.judge("later lines", node.came_of(text), due)
        node.judge("byte by byte", node.came_of(*(bytes([byte]) for byte in REACH), pause=0.001), REACHED)
        node.judge("no line end", node.came_of(REACH[:-1]), REACHED)
        node.judge("too long first", node.came_of(b"{" + b"x" * LONG + b"\n" + REACH), J1 + REACHED)
        judge(node.came_of(REACH + STOP) == REACHED + J1 + b'{"stopped":true}\n', "a client's stop is none")
        judge(node.running[0].wait(PATIENCE) == 0, "the node ended otherwise")
    return f"{len(rows)} lines"


def line_by_line(daemon):
    """`role_daemon` answers each line by itself, save behind the methods of HTTP that it knows."""
    with Alone(daemon) as node:
        for method in KNOWN:
            node.judge(method, node.came_of(request(method)), J1)
        for first, answer in [(b"", J1), (b"[1]", J2), (b"nope", J1), (b"DELETE / HTTP/1.1\r", J1), (b"\x16\3\1", J1),
                              (b"x" * LONG, J1)]:
            node.judge(first[:20], node.came_of(first + b"\n" + REACH), answer + REACHED)
        node.judge("a blank", node.came_of(b" " + REACH), REACHED)
    return "as it did"


def cases(given):
    """The cases, each with its name."""
    tried = [
        ("first bytes that are no client's", none_is_obeyed, "tundelca"),
        ("each first byte", any_other_byte, "tundelca"),
        ("first bytes in parts", in_parts, "tundelca"),
        ("no byte", no_byte, "tundelca"),
        ("odd lines behind a client's", later_lines, "tundelca"),
        ("odd lines behind a client's, role_daemon", later_lines, "role_daemon"),
        ("first bytes, role_daemon", line_by_line, "role_daemon"),
    ]
    return [Case(name, lambda case=case, program=program: case(given.program(program)))
            for name, case, program in tried]


if __name__ == "__main__":
    runner.main("first_bytes", __doc__, cases)
