#!/usr/bin/python3
"""A decision point before a node: whether a user may do something, asked over HTTP by names.

    tundelca-gateway NODE POLICY [--listen ADDRESS:PORT | --socket PATH] [--owner ACCOUNT]

NODE is the node's client port on this machine, the path of its socket, or @NAME for that of the package's node NAME;
POLICY the policy file, which says whose word counts for each type of thing and which number each name is. It listens at
127.0.0.1:7500 if nothing else is said, and never anywhere but at a loopback address or a socket: TLS and other machines
are a proxy's. `man tundelca-gateway` has the calls and the policy file, `tundelca-ctl policy` looks at one.

It wants Debian's python3-tornado. SIGTERM has it answer what is under way, and end with 0.
"""
import argparse
import asyncio
import contextlib
import ipaddress
import os
import socket
import stat
import sys
from typing import List, Tuple

if __name__ == "__main__":
    sys.dont_write_bytecode = True

import tundelca  # noqa: E402

NAME, LISTEN = "tundelca-gateway", "127.0.0.1:7500"
WORDS, DEVICE = 3, 4  # exit statuses: of words and of the policy file, of an address or socket that can't be had
BACKLOG = 512


class Words(argparse.ArgumentParser):
    """Words that are wrong are told in a line, and the exit status is 3."""

    def error(self, message: str) -> "None":  # type: ignore[override]
        self.exit(WORDS, f"{self.prog}: {message}; --help says more\n")


def address(word: str) -> Tuple[str, int]:
    """A loopback address and a port."""
    host, _, port = word.rpartition(":")
    host = host[1:-1] if host.startswith("[") and host.endswith("]") else host
    try:
        is_here = ipaddress.ip_address(host).is_loopback
    except ValueError:
        raise argparse.ArgumentTypeError(f"{word} is no ADDRESS:PORT, as {LISTEN}") from None
    if not port.isdecimal() or not int(port) < 65_536:
        raise argparse.ArgumentTypeError(f"{word}: {port} is no port")
    if not is_here:
        raise argparse.ArgumentTypeError(f"{host} is no loopback address: other machines come by a proxy, with TLS")
    return host, int(port)


def parsed(words: List[str]) -> argparse.Namespace:
    parser = Words(prog=NAME, description=__doc__, formatter_class=argparse.RawDescriptionHelpFormatter)
    parser.add_argument("node", metavar="NODE", help="the node's client port, its socket's path, or @NAME")
    parser.add_argument("policy", metavar="POLICY", help="the policy file")
    where = parser.add_mutually_exclusive_group()
    where.add_argument("--listen", type=address, metavar="ADDRESS:PORT", help=f"where it listens ({LISTEN})")
    where.add_argument("--socket", metavar="PATH", help="a socket where it listens, for its account and its group")
    parser.add_argument("--owner", "--account", dest="account", metavar="ACCOUNT",
                        help="whose node it may be, beside root, tundelca and its own, where it listens at a socket")
    parser.add_argument("--url", metavar="URL", help="its address as callers know it, in what it tells of itself")
    return parser.parse_args(words)


def tcp_listener(host: str, port: int) -> socket.socket:
    """A listener at an address."""
    listener = socket.socket(socket.AF_INET6 if ":" in host else socket.AF_INET)
    listener.setsockopt(socket.SOL_SOCKET, socket.SO_REUSEADDR, 1)
    listener.bind((host, port))
    return listener


def unix_listener(path: str) -> socket.socket:
    """A listener at a path, where a socket may stand at which nobody listens any more."""
    with contextlib.suppress(FileNotFoundError):
        if not stat.S_ISSOCK(os.lstat(path).st_mode):
            raise OSError(0, "it is there, and is no socket", path)
        with socket.socket(socket.AF_UNIX) as tried:
            try:
                tried.connect(path)
                raise OSError(0, "somebody listens there", path)
            except ConnectionRefusedError:
                os.unlink(path)
    listener = socket.socket(socket.AF_UNIX)
    before = os.umask(0o117)
    try:
        listener.bind(path)
    finally:
        os.umask(before)
    return listener


def listening(given: argparse.Namespace) -> Tuple[socket.socket, str]:
    """The listener, and its address as a URL."""
    if given.socket is not None:
        return unix_listener(given.socket), "http://localhost"
    host, port = given.listen or address(LISTEN)
    listener = tcp_listener(host, port)
    shown = f"[{host}]" if ":" in host else host
    return listener, f"http://{shown}:{listener.getsockname()[1]}"


def told(text: object, status: int) -> int:
    """Says what is wrong, in a line."""
    print(f"{NAME}: {text}", file=sys.stderr)
    return status


def main() -> int:
    given = parsed(sys.argv[1:])
    try:
        from gateway import policy, server
    except ModuleNotFoundError as missing:
        if (missing.name or "").partition(".")[0] != "tornado":
            raise
        return told(f"{sys.executable} has no module tornado: apt-get install python3-tornado", WORDS)
    try:
        door = tundelca.door(given.node, given.account)
    except ValueError as fault:
        return told(fault, WORDS)
    try:
        policy.read(given.policy)
    except policy.Wrong as wrong:
        return told(f"the policy file {given.policy} is refused: {wrong}", WORDS)
    try:
        listener, url = listening(given)
    except OSError as fault:
        return told(f"{given.socket or '%s:%d' % (given.listen or address(LISTEN))}: {fault.strerror}", DEVICE)
    try:
        listener.listen(BACKLOG)
        listener.setblocking(False)
        return asyncio.run(server.serve(door, given.policy, listener, (given.url or url).rstrip("/")))
    except policy.Wrong as wrong:
        return told(f"the policy file {given.policy} is refused: {wrong}", WORDS)
    finally:
        if given.socket is not None:
            with contextlib.suppress(OSError):
                os.unlink(given.socket)


if __name__ == "__main__":
    sys.exit(main())
