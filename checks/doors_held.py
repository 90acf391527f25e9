"""What those who hold a door of a serving node do to who comes by the other one, and by the same. For checks/doors.py."""
import contextlib
import json
import os
import resource
import select
import socket
import tempfile
import time
from statistics import median

import gateways
from cluster import PATIENCE, ROLE, Cluster, tundelca
from lives import compiled
from loads import Load
from runner import Failed, judge, wait_until

STRANGER = 61_003  # an account of nobody
SLOTS = 16  # of a door
OTHER_DOOR, OWN_DOOR = 0.1, 0.3  # seconds until an answer beside held connections, at most
TRIES = 5  # since other work on this machine comes and goes; who has no place waits a second in each
ASKED = 40  # checks that are timed
WAITS = 0.1  # seconds for which a connection waits for the end of a line before it may give way
SYNC, SOON = 1.0, 2.0  # seconds of a sync, and until a connection that gave way is seen to end
KINDS = ("idle", "half lines", "endless lines", "no reader")
CHECK = {"session": 1, "user": 7, "operation": 5, "object": 9}
POLICY = {**{name: part for name, part in gateways.POLICY.items() if name != "forward"},
          "types": {"record": gateways.POLICY["types"]["record"]}}  # of one owner


def hold(is_over, door, kind, count):
    """Holds so many connections, or as many as it gets, as another account where it may. How many it made."""
    limit = resource.getrlimit(resource.RLIMIT_NOFILE)[1]
    resource.setrlimit(resource.RLIMIT_NOFILE, (min(limit, 4_096), limit))
    if os.geteuid() == 0 and door.is_port():
        os.setgroups([])
        os.setgid(STRANGER)
        os.setuid(STRANGER)
    held, made, poll = {}, 0, select.poll()
    while not is_over():
        for _ in range(min(100, count - len(held))):
            with contextlib.suppress(OSError):
                one = door.begin()
                held[one.fileno()] = one
                poll.register(one, select.POLLIN | select.POLLOUT if kind != "idle" else select.POLLIN)
                made += 1
        for number, events in poll.poll(5):
            if not goes_on(held[number], kind, events):
                poll.unregister(number)
                held.pop(number).close()
            elif kind == "half lines":  # which was said
                poll.modify(number, select.POLLIN)
        time.sleep(0.002)
    return f"{made} connections of {kind}"


def goes_on(one, kind, events):
    """Does what is done on a connection that may be read or written. Whether it stands."""
    try:
        if kind == "half lines" and events & select.POLLOUT:
            one.send(b'{"op":"stop"')
        elif kind == "endless lines" and events & select.POLLOUT:
            one.send(b"{" * 1_000)
        elif kind == "no reader" and events & select.POLLOUT:
            one.send(b'{"op":"assigned_users","role":2}\n' * 30)
        return kind == "no reader" or not events & select.POLLIN or bool(one.recv(65_536))
    except BlockingIOError:
        return True
    except OSError:
        return False


class Held(Cluster):
    """One node with a port and a socket, where user 7 has a session in which it may do something."""

    def __init__(self, program, **more):
        super().__init__(program, doors=("port", "socket"), waits=True, **more)
        with self.by_socket() as owner:
            owner.ask("grant", role=ROLE, operation=5, object=9)
            users = [7, *range(100, 1_100)]  # so that a listing is long
            owner.publish([{"op": "assign", "user": user, "role": ROLE} for user in users], 0, in_order=False)
            judge(owner.open(7) == CHECK["session"], "another session")
            owner.ask("activate", session=CHECK["session"], user=7, role=ROLE)

    def by_socket(self, patience=PATIENCE):
        return tundelca.Client(self.socket_path(0), patience)

    def allowed(self, client):
        """How long a check takes on this client."""
        begun = time.monotonic()
        judge(client.check(**CHECK).allow, "it isn't allowed")
        return time.monotonic() - begun


def other_door(program):
    """Sixteen connections at the port, and a thousand, of each kind: who comes by the socket is answered at once, and
    the gateway there goes on."""
    told = []
    for kind in KINDS:
        for count in (SLOTS, 1_000):
            told.append(in_time(lambda: beside(program, kind, count), OTHER_DOOR))
    gone = "" if gateways.has_tornado() else "; NO GATEWAY WAS TRIED: there is no python3-tornado"
    return f"{len(told)} loads; a check took {max(told):.0f} ms at most{gone}"


def in_time(tried, most):
    """The times of some tries, in milliseconds at most; the least of them have to be within so many seconds."""
    took = []
    for _ in range(TRIES):
        took.append(tried())
        if took[-1] <= most:
            return 1_000 * took[-1]
    raise Failed(f"waited {', '.join(f'{1_000 * one:.0f}' for one in took)} ms, where {1_000 * most:.0f} are due")


def beside(program, kind, count):
    """The longest time of checks on a kept connection, on new ones, and of `stop`, while so many are held."""
    with Held(program) as node, contextlib.ExitStack() as stack:
        gateway = None
        if gateways.has_tornado():
            gateway = stack.enter_context(gateways.Gateway(node.socket_path(0), POLICY)).wait()
        load = stack.enter_context(Load(hold, tundelca.door(node.clients[0]), kind, count))
        kept = stack.enter_context(node.by_socket())
        time.sleep(0.3)
        took = [node.allowed(kept) for _ in range(ASKED)]
        for _ in range(ASKED // 4):
            begun = time.monotonic()
            with node.by_socket() as new:
                node.allowed(new)
            took.append(time.monotonic() - begun)
            if gateway is not None:
                judge(gateway.decides() is True, f"beside {count} {kind} the gateway says otherwise")
        begun = time.monotonic()
        kept.ask("stop")
        took.append(time.monotonic() - begun)
        judge(node.running[0].wait(PATIENCE) == 0, f"beside {count} {kind} it ended otherwise")
        load.told()
    return max(took)


# The same door.


def own_door(program):
    """Beside sixteen connections at its own door a newcomer is answered soon, however they are held: the one that has
    waited longest for the end of a line gives way, and no other."""
    told = []
    for door in ("socket", "port"):
        for kind in KINDS[:3]:
            told.append(in_time(lambda: newcomers(program, door, kind), OWN_DOOR))
    return f"a newcomer waited {max(told):.0f} ms at most"


def newcomers(program, name, kind):
    """The longest time until newcomers have an answer."""
    with Held(program) as node:
        door = tundelca.door(node.socket_path(0) if name == "socket" else node.clients[0])
        took = []
        with Load(hold, door, kind, SLOTS) as load:
            time.sleep(0.5)
            for _ in range(5):
                begun = time.monotonic()
                with tundelca.Client(door, PATIENCE) as new:
                    node.allowed(new)
                took.append(time.monotonic() - begun)
                time.sleep(0.3)  # the one that gave way comes again
            load.told()
        return max(took)


def longest_gives_way(program):
    """Of sixteen the one whose last answer is longest ago gives way; the others stand, and so does the other door."""
    with Held(program) as node, contextlib.ExitStack() as stack:
        door = tundelca.door(node.socket_path(0))
        held = [stack.enter_context(contextlib.closing(door.connect(PATIENCE))) for _ in range(SLOTS)]
        for at in (*range(5, SLOTS), *range(5)):  # number 5 is answered first, number 4 last
            answered(held[at])
            time.sleep(0.01)
        at_port = stack.enter_context(tundelca.Client(node.clients[0], PATIENCE))
        judge(at_port.check(**CHECK).allow, "not allowed at the port")
        time.sleep(2 * WAITS)
        for due in (5, 6, 7):
            stack.enter_context(tundelca.Client(door, PATIENCE)).check(**CHECK)
            wait_until(lambda: due in ended(held), f"number {due} gives way, and not {ended(held)}", SOON)
            time.sleep(0.05)
            judge(ended(held) == list(range(5, due + 1)), f"{ended(held)} gave way")
        judge(all(answered(held[at]) for at in (*range(5), *range(8, SLOTS))), "another has gone")
        judge(at_port.check(**CHECK).allow, "the one at the port has gone")
    return "three newcomers, three that gave way, in their order"


def ended(links):
    """Which connections have ended, or have more to say than was asked."""
    return [at for at, link in enumerate(links) if select.select([link], [], [], 0)[0]]


def answered(link, line=b'{"op":"reach","owner":0}\n'):
    """The answer to a line on a connection."""
    link.sendall(line)
    came = b""
    while not came.endswith(b"\n"):
        part = link.recv(65_536)
        judge(part, "the connection has ended")
        came += part
    return came


def half_lines(program):
    """Half a line of one that gives way isn't obeyed, also where it is whole as JSON, nor what comes behind; a whole
    line before it is answered."""
    halves = [b'{"op":"stop"}', b'{"op":"stop"', b'{"op":"clear","role":2}',
              b'{"op":"reach","owner":0}\n{"op":"stop"}', b'{"op":"reach","owner":0}\n{"op":"clear","role":2']
    with Held(program) as node, contextlib.ExitStack() as stack:
        door = tundelca.door(node.socket_path(0))
        reach = node.by_socket().reach(0)
        time.sleep(2 * WAITS)
        for half in halves:
            one = stack.enter_context(contextlib.closing(door.connect(PATIENCE)))
            whole, _, rest = half.rpartition(b"\n")
            came = answered(one, whole + b"\n") if whole else b""
            one.sendall(rest)
            time.sleep(0.02)  # a node counts in milliseconds
            others = [stack.enter_context(contextlib.closing(door.connect(PATIENCE))) for _ in range(SLOTS - 1)]
            time.sleep(2 * WAITS)
            with tundelca.Client(door, PATIENCE) as new:
                judge(all_of(one) == b"", f"{half} has an answer")
                with contextlib.suppress(OSError):
                    one.sendall(b'}\n{"op":"stop"}\n')
                time.sleep(0.05)
                judge(new.reach(0) == reach and came.count(b"\n") == half.count(b"\n"), f"{half} was obeyed")
            for other in others:
                other.close()
            time.sleep(0.05)
        judge(node.running[0].poll() is None, "it was stopped")
    return f"{len(halves)} halves"


def all_of(link):
    """All that comes on a connection up to its end."""
    came = b""
    with contextlib.suppress(ConnectionError):
        while True:
            part = link.recv(65_536)
            if not part:
                break
            came += part
    return came


def answered_ones_stay(program):
    """Sixteen connections whose lines wait for a slow sync: none gives way, and each is answered."""
    with tempfile.TemporaryDirectory(prefix="tundelca-") as folder, contextlib.ExitStack() as stack:
        slow = {"LD_PRELOAD": compiled("bench/slow_sync.c", folder), "SLOW_SYNC": str(int(SYNC * 1_000_000))}
        node = stack.enter_context(Cluster(program, has_journals=True, waits=True, variables=slow,
                                           doors=("port", "socket")))
        door = tundelca.door(node.socket_path(0))
        held = [stack.enter_context(contextlib.closing(door.connect(PATIENCE))) for _ in range(SLOTS)]
        for one in held:
            one.sendall(b'{"op":"open","user":7}\n')
        time.sleep(2 * WAITS)
        new, begun = stack.enter_context(contextlib.closing(door.connect(PATIENCE))), time.monotonic()
        new.sendall(b'{"op":"reach","owner":0}\n')
        came = [answered(one, b"") for one in held]
        judge(all(json.loads(line).get("session") for line in came), str(came))
        waited = time.monotonic() - begun
        judge(waited > SYNC / 2, f"the sync took {waited:.1f} s alone")
    return f"16 answers after {waited:.1f} s"


CASES = [("held: the other door", other_door), ("held: its own door", own_door),
         ("held: who gives way", longest_gives_way), ("held: half lines", half_lines),
         ("held: who is answered stays", answered_ones_stay)]
