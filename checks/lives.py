"""Nodes with journals that live several times, and what is held against what they said. For checks/crashes.py."""
import hashlib
import hmac
import json
import os
import random
import select
import shlex
import shutil
import socket
import struct
import subprocess
import tempfile
import threading
import time

from cluster import ECHO, PATIENCE, READY, ROLE, SEND, TOP, Cluster, assign, tundelca
from forwarders import FRAME
from runner import Failed

MOST_SESSIONS = 300  # of a node
AHEAD = 16  # places for which the liar offers two stories
SYNCS = 2  # that a node makes at its start, at most
PACE = 0.03  # seconds between two commands of an owner, and two looks at sessions


def compilers():
    """The words that call each C compiler that may be here, the kit's first."""
    kit = subprocess.run(["rt", "doc"], capture_output=True, text=True).stdout.strip() if shutil.which("rt") else ""
    own = os.path.join(os.path.dirname(kit), "toolchain", "bin", "clang")
    return [[own, "-fuse-ld=lld"], shlex.split(os.environ.get("CC", "")), ["cc"], ["gcc"], ["clang"]]


def compiled(name, folder):
    """The library that a C file makes, named from the top, which is loaded into a program by LD_PRELOAD."""
    library, tried = os.path.join(folder, os.path.basename(name) + ".so"), []
    for words in compilers():
        if words and shutil.which(words[0]):
            words = [*words, "-O1", "-shared", "-fPIC", "-nostdlib", "-fno-builtin", "-o", library,
                     os.path.join(TOP, name)]
            ran = subprocess.run(words, capture_output=True, text=True)
            if ran.returncode == 0:
                return library
            tried.append(f"{words[0]}: {ran.stderr.strip()[-200:]}")
    raise Failed(f"no C compiler here makes {name}: {'; '.join(tried) or 'none'}")


class Liar(threading.Thread):
    """The last node: it has keys, offers two stories at its own places, and keeps every frame that it gets."""

    def __init__(self, lives, me, is_silent):
        super().__init__(daemon=True)
        self.lives, self.me, self.is_silent = lives, me, is_silent
        self.kept, self.wrong, self.count, self.is_over = {}, None, 0, threading.Event()
        self.sink = socket.socket()
        self.sink.setsockopt(socket.SOL_SOCKET, socket.SO_REUSEADDR, 1)
        self.sink.bind((tundelca.LOOPBACK, lives.nodes[me]))
        self.sink.listen(64)
        self.heard, self.links = {}, {}

    def run(self):
        told = 0.0
        while not self.is_over.is_set():
            for one in select.select([self.sink, *self.heard], [], [], 0.01)[0]:
                if one is self.sink:
                    self.heard[one.accept()[0]] = b""
                else:
                    self.read(one)
            if not self.is_silent and time.monotonic() > told:
                told = time.monotonic() + 0.05
                self.tell()
        for one in [self.sink, *self.heard, *self.links.values()]:
            one.close()

    def read(self, one):
        """Keeps the frames that have come."""
        try:
            came = one.recv(1 << 16)
        except OSError:
            came = b""
        if not came:
            del self.heard[one]
            return one.close()
        block = self.heard[one] + came
        whole = len(block) - len(block) % FRAME
        self.heard[one] = block[whole:]
        for at in range(0, whole, FRAME):
            self.keep(block[at:at + FRAME])

    def keep(self, frame):
        """A frame stands for one command of its sender, kind, owner and place, over all lives."""
        _, _, source, to, kind, owner, place = struct.unpack(">BIBBBBI", frame[:13])
        tag = hmac.new(self.lives.keys[self.me][source], frame[:22], hashlib.sha256).digest()
        if to != self.me or tag != frame[22:]:
            self.wrong = self.wrong or f"a frame of node {source} doesn't open"
        said, name = frame[13:22], (source, kind, owner, place)
        self.count += 1
        if self.kept.setdefault(name, said) != said:
            two = f"{self.kept[name].hex()} and {said.hex()}"
            self.wrong = self.wrong or f"node {source}, kind {kind}, owner {owner}, place {place}: two commands, {two}"

    def tell(self):
        """Sends each node a story at the liar's own places, now this one, now the other, and votes for what isn't."""
        for to in range(self.lives.correct):
            story = random.random() < 0.5
            frames = [self.lives.frame(self.me, to, SEND, self.me, place, assign(place + 1_000 * story, ROLE + self.me))
                      for place in range(AHEAD)]
            frames += [self.lives.frame(self.me, to, random.choice((ECHO, READY)), owner, random.randrange(300),
                                        assign(9_000 + story, ROLE + owner)) for owner in range(self.lives.correct)]
            self.send(to, b"".join(frames))

    def send(self, to, block):
        try:
            if to not in self.links:
                self.links[to] = socket.create_connection((tundelca.LOOPBACK, self.lives.nodes[to]), 0.2)
            self.links[to].sendall(block)
        except OSError:
            if to in self.links:
                self.links.pop(to).close()

    def end(self):
        self.is_over.set()
        self.join()


class Probe:
    """How many seconds a sync of a small file in a folder takes at most meanwhile: what a busy disk costs a node."""

    def __init__(self, folder):
        self.folder, self.longest, self.is_over = folder, 0.0, threading.Event()
        self.thread = threading.Thread(target=self.look, daemon=True)

    def __enter__(self):
        self.thread.start()
        return self

    def __exit__(self, *_):
        self.is_over.set()
        self.thread.join()

    def look(self):
        with tempfile.TemporaryFile(dir=self.folder, buffering=0) as file:
            while not self.is_over.wait(0.005):
                began = time.monotonic()
                file.write(bytes(4096))
                os.fdatasync(file.fileno())
                self.longest = max(self.longest, time.monotonic() - began)


class Lives(Cluster):
    """Nodes with journals, all but the last, which is the liar."""

    def __init__(self, program, nodes=5, library=None, is_silent=False):
        self.correct, self.library, self.longest, self.liar = nodes - 1, library, 0.0, None
        self.told = {}  # of each node: variables that tell its library something at its next start
        self.published, self.sessions, self.at = {}, {}, {}  # of each node: what was answered
        self.issued, self.is_over, self.loads, self.wrong = 0, threading.Event(), [], None
        super().__init__(program, nodes, 1, nodes, (), has_journals=True)
        try:
            self.liar = Liar(self, nodes - 1, is_silent)
            self.liar.start()
            for me in range(self.correct):
                self.begin(me)
                self.start(me)
            self.wait()
        except BaseException:
            self.end()
            raise

    def environment(self, me):
        loaded = {} if self.library is None else {"LD_PRELOAD": self.library}
        return {**super().environment(me), **loaded, **self.told.get(me, {})}

    def await_start(self, me, most):
        """Waits until a node that was started answers, which takes so many seconds at most, beside its syncs."""
        with Probe(os.path.dirname(self.journal(me))) as probe:
            while not self.answers(me):
                took = time.monotonic() - self.begun[me]
                if self.running[me].poll() is not None or took > PATIENCE:
                    raise Failed(f"node {me} doesn't start: {self.running[me].poll()} after {took:.1f} s")
                time.sleep(0.002)
        took = time.monotonic() - self.begun[me]
        self.longest = max(self.longest, took)
        if took > most + SYNCS * probe.longest:
            raise Failed(f"the start of node {me} took {took:.2f} s, where a sync took {probe.longest:.2f}")

    def crash(self, me, number):
        """Ends a node by a signal; it hasn't ended by itself."""
        status = self.kill(me, number)
        if status != -number:
            raise Failed(f"node {me} ended by itself, with status {status}")

    # What is asked of them meanwhile.

    def begin_loads(self):
        """Commands of each node, and sessions at each, from now on."""
        self.loads = [threading.Thread(target=work, args=(me,), daemon=True)
                      for me in range(self.correct) for work in (self.publish, self.open)]
        for one in self.loads:
            one.start()

    def end_loads(self):
        self.is_over.set()
        for one in self.loads:
            one.join(PATIENCE)
        if self.wrong or self.liar.wrong:
            raise Failed(self.wrong or self.liar.wrong)

    def ask_on(self, me, step):
        """Does a step again and again with a client of the node, of its next life where one ends."""
        while not self.is_over.is_set():
            try:
                with self.client(me) as node:
                    while not self.is_over.is_set():
                        step(node)
            except (tundelca.Unreachable, json.JSONDecodeError):
                time.sleep(0.005)
            except tundelca.Refused as fault:
                self.wrong = self.wrong or f"node {me}: {fault}"

    def publish(self, me):
        """User K has its role once the command is delivered; whether it was published isn't known without an answer."""
        users, places = iter(range(1 << 20)), self.published.setdefault(me, {})

        def step(node):
            user = next(users)
            while not self.is_over.is_set():
                try:
                    place = node.ask("assign", user=user, role=ROLE + me)["issued"]
                except tundelca.Refused as fault:
                    if fault.code != "F3":
                        raise
                    time.sleep(0.01)
                    continue
                if place in places:
                    self.wrong = self.wrong or f"node {me} published two commands at place {place}"
                places[place] = user
                self.issued += 1
                time.sleep(PACE)
                return

        self.ask_on(me, step)

    def open(self, me):
        """Opens sessions of users that have a role, activates it, and asks what was opened before."""
        held = self.sessions.setdefault(me, {})  # of each session its user, and whether its role is active

        def step(node):
            users = list(self.published.get(me, {}).items())
            if len(held) < MOST_SESSIONS and users:
                place, user = users[random.randrange(len(users))]
                session = node.open(user)
                if session in held:
                    self.wrong = self.wrong or f"node {me} opened session {session} twice"
                held[session] = (user, False)
                if place < node.reach(me):
                    node.ask("activate", session=session, user=user, role=ROLE + me)
                    held[session] = (user, True)
            for session in random.sample(list(held), min(5, len(held))):
                self.look(me, node, session)
            time.sleep(PACE)

        self.ask_on(me, step)

    def look(self, me, node, session):
        """A session that was answered is open, and the history hasn't got shorter."""
        decision = node.check(session, self.sessions[me][session][0], 1, 1)
        if decision.rule in ("N1", "N2"):
            self.wrong = self.wrong or f"node {me} doesn't know session {session} any more: {decision.rule}"
        if decision.at < self.at.get(me, 0):
            self.wrong = self.wrong or f"the history of node {me} fell from {self.at[me]} to {decision.at}"
        self.at[me] = max(self.at.get(me, 0), decision.at)

    # What came of it.

    def answered(self):
        return sum(len(places) for places in self.published.values())

    def opened(self):
        return sum(len(held) for held in self.sessions.values())

    def kept(self):
        return self.liar.count

    def settle(self, most):
        """Waits until all reaches agree, and each owner's is beyond all that it answered. The seconds that it took."""
        begin, still = time.monotonic(), None
        while True:
            reaches = []
            for me in range(self.correct):
                with self.client(me) as node:
                    reaches.append([node.reach(owner) for owner in range(self.correct + 1)])
            due = [max(self.published.get(owner, {}), default=-1) + 1 for owner in range(self.correct)]
            agree = all(reach == reaches[0] for reach in reaches)
            if agree and all(reach >= least for reach, least in zip(reaches[0], due)):
                if reaches == still:
                    return time.monotonic() - begin
                still = reaches
            if time.monotonic() > begin + most:
                raise Failed(f"after {most} s the reaches are {reaches}, and {due} were published")
            time.sleep(0.05)

    def compare(self):
        """What was answered is there, at each node alike."""
        if self.wrong or self.liar.wrong:
            raise Failed(self.wrong or self.liar.wrong)
        if self.kept() < self.answered():
            raise Failed(f"{self.kept()} frames tell little of {self.answered()} commands")
        for owner in range(self.correct + 1):
            lists = []
            for me in range(self.correct):
                with self.client(me) as node:
                    lists.append(sorted(node.listing("assigned_users", role=ROLE + owner)))
            gone = set(self.published.get(owner, {}).values()) - set(lists[0])
            if any(one != lists[0] for one in lists) or gone:
                counts = [len(one) for one in lists]
                raise Failed(f"of owner {owner} the nodes list {counts} users; without {list(gone)[:5]}")
        for me, held in self.sessions.items():
            with self.client(me) as node:
                for session, (user, is_active) in held.items():
                    self.look(me, node, session)
                    if is_active:
                        self.still_active(me, node, session, user)
        if self.wrong:
            raise Failed(self.wrong)

    def still_active(self, me, node, session, user):
        try:
            node.ask("activate", session=session, user=user, role=ROLE + me)
        except tundelca.Refused as fault:
            if fault.name == "AlreadyActive":
                return
        raise Failed(f"node {me} has forgotten that a role is active in session {session}")

    def end(self):
        self.is_over.set()
        if self.liar is not None and self.liar.is_alive():
            self.liar.end()
        super().end()
