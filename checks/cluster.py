"""A cluster as processes on this machine, and what a script says to its nodes in the name of others.

`Cluster` is how checks, measurements and trials of examples start nodes: in memory or with journals, all of them or
some, beside nodes that the script plays, with forwarders between them, from new cluster files or from some that are
there. Each starts only processes of its own, and ends them by their ids. What is special to a trial is said by a class
below it: its words, where journals lie, how a process is started.
"""
import hashlib
import hmac
import json
import os
import resource
import signal
import socket
import struct
import subprocess
import tempfile
import time
from types import TracebackType
from typing import Any, Dict, Iterable, List, Optional, Sequence, Set, Tuple, Type

from paths import TOP  # noqa: F401  first, and for who has all of the house from here
import tundelca
from forwarders import FRAME, Forwarders
from played import Played

SEND, ECHO, READY = 1, 2, 3
ROLE = 2  # of owner 0; that of owner k is ROLE + k
PATIENCE = 20  # seconds
LOOK = 0.005  # seconds between two tries to reach a node that was started
LOOKED = 0.5  # seconds in which a node says at the end how it stands


def assign(user: int, role: int = ROLE) -> bytes:
    """The bytes of the command `assign USER ROLE`."""
    return struct.pack(">BHIH", 1, role, user, 0)


COMMAND = assign(7)
Ports = Tuple[Sequence[int], Sequence[int]]  # of nodes, and of clients


def read_text(path: str) -> Dict[str, Any]:
    """A cluster file."""
    with open(path, encoding="ascii") as file:
        return json.load(file)


def write_text(path: str, text: Dict[str, Any]) -> None:
    """Writes a cluster file anew, as it stands there."""
    with open(path, "w", encoding="ascii") as file:
        json.dump(text, file)


def moved_apart(path: str) -> str:
    """Moves a cluster file into a folder of its own, which has its name. Its path there."""
    folder, name = os.path.split(path)
    own = os.path.join(folder, os.path.splitext(name)[0])
    os.mkdir(own, 0o700)
    os.rename(path, os.path.join(own, name))
    return os.path.join(own, name)


class Cluster:
    """A cluster, and those of its nodes that are processes. All ends with it.

    Node k owns role ROLE + k, for the first `owners` nodes, where no `roles` are given. `running` are the nodes
    that are started at once, all if left out; the script may speak for others, or play all (`frame`, `play`). A
    program that keeps journals keeps them where `has_journals`, which are begun here; `waits` until all answer.
    With `is_apart` the nodes reach each other through `forwarders`, and what the script sends goes beside these.
    `ports` are those of nodes and of clients, free ones if left out; `hosts` the nodes' addresses, where not all
    are on 127.0.0.1. With `own_folders` each node's files, and so its keys, lie apart from the others'. From
    `paths` it takes cluster files that are there, and makes none. A node may open so many `descriptors`, and has
    `variables` beside its environment. Clients come through `doors`: the nodes' ports, their sockets, or both, where
    the script takes the ports.
    """

    def __init__(self, program: str = "", nodes: int = 1, may_lie: int = 0, owners: int = 1,
                 running: Optional[Iterable[int]] = None, *, roles: Optional[Iterable[Tuple[int, int]]] = None,
                 has_journals: bool = False, waits: bool = False, is_apart: bool = False, own_folders: bool = False,
                 ports: Optional[Ports] = None, hosts: Optional[Sequence[str]] = None,
                 paths: Optional[Sequence[str]] = None, descriptors: Optional[int] = None,
                 variables: Optional[Dict[str, str]] = None, doors: Tuple[str, ...] = ("port",)) -> None:
        self.program, self.may_lie, self.has_journals, self.descriptors = program, may_lie, has_journals, descriptors
        self.variables, self.doors = dict(variables or {}), doors
        self.roles = [(ROLE + owner, owner) for owner in range(owners)] if roles is None else list(roles)
        self.faults: Optional[int] = None  # where what nodes say on standard error goes; None: where the script's does
        self.running: Dict[int, "subprocess.Popen[bytes]"] = {}
        self.forwarders: Optional[Forwarders] = None
        self.played: Optional[Played] = None
        self.forgetful: Set[int] = set()  # the nodes that a script has had forget what they published
        self.begun: Dict[int, float] = {}  # of each node when it was started, by the monotonic clock
        self.folder = tempfile.TemporaryDirectory(prefix="tundelca-")
        try:
            self.paths = list(paths or self.new_files(nodes, ports, hosts))
            if own_folders:
                self.paths = [moved_apart(path) for path in self.paths]
            self.read_files()
            if is_apart:
                self.forwarders = Forwarders(self.nodes)
                self.route(self.forwarders.ports)
            for me in range(len(self.paths)) if running is None else running:
                if has_journals:
                    self.begin(me)
                self.start(me)
            if waits:
                self.wait()
        except BaseException:
            self.end()
            raise

    def new_files(self, nodes: int, ports: Optional[Ports], hosts: Optional[Sequence[str]]) -> List[str]:
        """Writes cluster files with new keys. Their paths."""
        free = tundelca.free_ports(2 * nodes) if ports is None else []
        of_nodes, of_clients = ports or (free[:nodes], free[nodes:])
        return tundelca.cluster_files(self.folder.name, self.roles, of_nodes, of_clients, self.may_lie, hosts=hosts)

    def read_files(self) -> None:
        """Takes ports and keys from the cluster files: where each node takes frames and clients, and what it knows."""
        texts = [read_text(path) for path in self.paths]
        self.nodes: List[int] = texts[0]["nodes"]
        self.clients: List[int] = [text["client"] for text in texts]
        self.keys = [[bytes.fromhex(key) for key in text["keys"]] for text in texts]

    def rewrite(self, me: int, **members: object) -> None:
        """Changes members of a node's cluster file, which it reads when it starts; None takes one away."""
        text = {**read_text(self.paths[me]), **members}
        write_text(self.paths[me], {name: value for name, value in text.items() if value is not None})

    def route(self, ports: Dict[Tuple[int, int], int]) -> None:
        """From its next start on node i reaches node j at `ports[i, j]`, where there is one."""
        for me in range(len(self.paths)):
            self.rewrite(me, nodes=[ports.get((me, to), port) for to, port in enumerate(self.nodes)])

    # What is special to a trial.

    def words(self, me: int, word: str = "serve") -> List[str]:
        """The program and the words with which it serves a node, or does something else with its files."""
        words = [self.program, word, "--cluster", self.paths[me]]
        if self.has_journals or word == "journal":
            words += ["--journal", self.journal(me)]
        elif word == "serve" and not self.is_daemon():
            words += ["--in-memory"]
        if word == "serve" and "socket" in self.doors:
            words += ["--socket", self.socket_path(me)]
            words += [] if "port" in self.doors else ["--no-port"]
        return words

    def is_daemon(self) -> bool:
        """Whether the program is role_daemon, which keeps no journals and has no words for that."""
        return os.path.basename(self.program).startswith("role_daemon")

    def socket_path(self, me: int) -> str:
        """Where a node's socket is: in a folder of its own, which the node makes."""
        return f"{self.paths[me]}.door/node.socket"

    def journal(self, me: int) -> str:
        """Where a node's journal lies."""
        return f"{self.paths[me]}.journal"

    def environment(self, me: int) -> Dict[str, str]:
        """The environment of a node."""
        return {**os.environ, **self.variables}

    def limit(self) -> None:
        """Runs in a node's process before its program."""
        if self.descriptors is not None:
            resource.setrlimit(resource.RLIMIT_NOFILE, (self.descriptors, self.descriptors))

    def settings(self, me: int) -> Dict[str, Any]:
        """How a node's process is started, beside its words."""
        limit = None if self.descriptors is None else self.limit
        return {"env": self.environment(me), "preexec_fn": limit, "stderr": self.faults}

    # Its processes.

    def begin(self, me: int) -> None:
        """Begins a node's journal."""
        subprocess.run(self.words(me, "journal"), check=True, stdin=subprocess.DEVNULL, timeout=PATIENCE)

    def start(self, me: int) -> None:
        """Starts a node, and doesn't wait for it."""
        self.begun[me] = time.monotonic()
        self.running[me] = subprocess.Popen(self.words(me), stdin=subprocess.DEVNULL, **self.settings(me))

    def start_again(self, me: int) -> None:
        """Ends a node as by a crash, starts it, and waits until it answers."""
        self.kill(me)
        self.start(me)
        self.wait([me])

    def wait(self, some: Optional[Iterable[int]] = None, patience: float = PATIENCE) -> "Cluster":
        """Waits until these nodes answer clients, or all that run. The cluster."""
        end = time.monotonic() + patience
        for me in list(self.running) if some is None else some:
            while not self.answers(me):
                status = self.running[me].poll()
                if status is not None:
                    why = "a signal" if status < 0 else tundelca.STATUSES.get(status, "its program knows no such status")
                    raise tundelca.NodeFault(f"node {me} ended with status {status}: {why}")
                if time.monotonic() > end:
                    raise tundelca.Unreachable(f"node {me} doesn't answer {patience:.0f} s after its start")
                time.sleep(LOOK)
        return self

    def answers(self, me: int) -> bool:
        """Whether a node takes a client, at each of its doors: the socket comes behind the port."""
        try:
            self.client(me).close()
            if len(self.doors) > 1:
                tundelca.Client(self.socket_path(me), PATIENCE).close()
            return True
        except tundelca.Unreachable:
            return False

    def kill(self, me: int, number: int = signal.SIGKILL) -> int:
        """Ends a node by a signal. Its status."""
        process = self.running[me]
        if process.poll() is None:
            process.send_signal(number)
        status = process.wait(PATIENCE)
        if process.stderr is not None:
            process.stderr.close()
        return status

    def stop(self, me: int) -> int:
        """Has a node stop as an operator would. Its status."""
        with self.client(me) as node:
            node.ask("stop")
        return self.running[me].wait(PATIENCE)

    def play(self) -> Played:
        """The script answers clients for all nodes (played.py), until the end; none of them may run."""
        self.played = Played(self.clients, dict(self.roles))
        return self.played

    # How it is reached.

    def client(self, me: int, patience: float = PATIENCE) -> tundelca.Client:
        """A client of a node."""
        return tundelca.Client(self.door(me), patience)

    def door(self, me: int) -> tundelca.Door:
        """Where a node takes clients."""
        return tundelca.door(self.clients[me] if "port" in self.doors else self.socket_path(me))

    def connect(self, me: int, patience: float = PATIENCE) -> socket.socket:
        """A connection to where a node takes clients."""
        return self.door(me).connect(patience)

    def link(self, to: int, patience: float = PATIENCE) -> socket.socket:
        """A connection to where a node takes frames."""
        return socket.create_connection((tundelca.LOOPBACK, self.nodes[to]), patience)

    def frame(self, source: int, to: int, kind: int, owner: int, place: int, command: bytes = COMMAND) -> bytes:
        """A frame of one node to another, as docs/FORMATS.md has it."""
        head = struct.pack(">BIBBBBI", 2, 1, source, to, kind, owner, place) + command
        return head + hmac.new(self.keys[source][to], head, hashlib.sha256).digest()

    def reach_all(self, owner: int, reach: int, some: Optional[Iterable[int]] = None) -> None:
        """Waits until these nodes have so many commands of an owner, or all that run."""
        for me in list(self.running) if some is None else some:
            with self.client(me) as node:
                node.wait_for_reach(owner, reach, PATIENCE)

    # Its end.

    def expect_as_issued(self) -> None:
        """Fails where a node that runs says that its stream isn't what it has published, and no script made that so."""
        for me, process in self.running.items():
            if process.poll() is None and me not in self.forgetful and not self.is_daemon():
                try:
                    with self.client(me, LOOKED) as node:
                        is_twice = node.ask("status").get("begun_twice", False)
                except tundelca.NodeFault:  # it is stopped, say, or has as many clients as it takes
                    continue
                if is_twice:
                    raise AssertionError(f"node {me} says that it was begun twice")

    def __enter__(self) -> Any:
        return self

    def __exit__(self, kind: Optional[Type[BaseException]], fault: Optional[BaseException],
                 trace: Optional[TracebackType]) -> None:
        try:
            if kind is None:
                self.expect_as_issued()
        finally:
            self.end()

    def end(self) -> None:
        """Ends what was started, at once, and removes what was made."""
        for process in self.running.values():
            if process.poll() is None:
                process.kill()
        for me in self.running:
            self.kill(me)
        if self.forwarders is not None:
            self.forwarders.end()
        if self.played is not None:
            self.played.end()
        self.folder.cleanup()


def flood(port: int, block: bytes, connections: int, is_over: Any) -> str:
    """Sends a block of frames again and again through as many connections as it gets. What went out, as a text."""
    held: Dict[socket.socket, bytes] = {}  # of each connection what is left of its block
    sent = begun = 0
    while not is_over():
        while len(held) < connections and not is_over():
            try:
                one = socket.create_connection((tundelca.LOOPBACK, port), 1)
            except OSError:
                break
            one.setblocking(False)
            held[one] = block
            begun += 1
        for one, rest in list(held.items()):
            try:
                went = one.send(rest)
                sent += went
                held[one] = rest[went:] or block
            except BlockingIOError:
                pass
            except OSError:
                del held[one]
                one.close()
        time.sleep(0.001)
    for one in held:
        one.close()
    return f"{sent // FRAME:,} frames through {begun} connections"
