"""A client of `tundelca serve` and `role_daemon serve`, and what it takes to set a cluster up on one machine.

    from tundelca import Client

    with Client(7400) as node:
        node.ask("assign", user=7, role=2)
        print(node.check(session=1, user=7, operation=5, object=9))
        commands = [{"op": "assign", "user": user, "role": 2} for user in range(20_000)]
        print(node.publish(commands, owner=0, others=[7401, 7402, 7403], may_lie=1))

One file, and nothing beside Python 3.9 and its standard library. As a program it is `tundelca_ctl.py` beside it. A node
hears lines of JSON at its door, a port of this machine or a Unix socket, one answer for each, and whoever reaches that
door may say anything in any user's name: keep it behind what knows your users, as tundelca_gateway.py does.
Wherever a node is named here, that is by what `door` takes: a port, a socket's path, `@NAME`, a cluster file.

A node may lie. Each answer is read up to a bound (`LONGEST`) and held against a form (`FORMS`), by `read_answer` alone;
what doesn't fit is an `Unfit`, and ends the connection. A line that nodes learn to answer gets its row in both.
"""
import collections
import contextlib
import errno
import io
import itertools
import json
import operator
import os
import pwd
import random
import re
import secrets
import select
import socket
import stat
import struct
import subprocess
import threading
import time
from dataclasses import dataclass, replace
from typing import Optional, Union

LOOPBACK = "127.0.0.1"
RUN, ETC = "/run/tundelca", "/etc/tundelca"  # where the package's nodes have their sockets and their cluster files
PUBLISHED = ("assign", "deassign", "grant", "revoke", "clear")
NODES = 128  # at most
PLACES = 1_048_576  # of a stream
EVENTS = 4_194_304  # of a node's history, at most
OF_OWNERS = 3_145_728  # of these, for what owners publish
SESSIONS, PAGE, ACTIVE = 4_096, 100, 64  # open at a node, told at once, active roles of one: at most
ASKED, A_LINE = 128, 100  # accesses that a line may ask about, and about which `decide_all` asks in one
ITEMS = 1_048_576  # of all listings of a node together: it has no room for more commands
MEANWHILE = 1_024  # sessions that open while the open ones are told
TOGETHER = 1_000  # answers that come within one patience
WINDOW = 64  # a node takes messages for so many places beyond its reach
AHEAD = WINDOW // 2  # what is published in bulk keeps to so many places beyond what most nodes have


class NodeFault(Exception):
    """A node didn't answer, or refused."""


def words_of(error):
    """What a fault of the system is, without its number."""
    return "no answer in time" if isinstance(error, socket.timeout) else getattr(error, "strerror", None) or str(error)


class Unreachable(NodeFault):
    """Nobody listens, the connection was closed, or no answer came in time. Whether the line was obeyed isn't known."""


def kind_of(error):
    """The fault of a connection: whether it has come to its end, or is given up."""
    return Ended if isinstance(error, ConnectionError) else Unreachable


class Unfit(Unreachable):
    """A node answered what no node says: another program is there, or one that lies."""

    def __init__(self, at, request, line):
        shown = line if len(line) <= SHOWN else line[:SHOWN] + ".."
        super().__init__(f"a node answers what no node says: {at}, to {json.dumps(request)}: {shown!a}")


class Ended(Unreachable):
    """The connection came to its end before an answer: the node closed it, or has ended."""


class Stranger(Unreachable):
    """Another account listens at a socket than may: what it answers would be no node's word. Nothing was sent."""

    def __init__(self, at, account, expected):
        super().__init__(f"at {at} listens {named_account(account)}, where {' or '.join(expected)} may: nothing was "
                         f"sent. If the node runs as {named_account(account)}, allow it (--owner)")


def named_account(number):
    """An account as a person knows it, with its number."""
    try:
        return f"{pwd.getpwuid(number).pw_name} ({number})"
    except KeyError:
        return f"account {number}"


def account_of(word):
    """The number of an account that is named, or given by its number. A ValueError where there is none."""
    if word.isdecimal():
        return int(word)
    try:
        return pwd.getpwnam(word).pw_uid
    except KeyError:
        raise ValueError(f"{word} is no account of this machine") from None


def place_of(address):
    """A port or a path, in words."""
    return f"port {address}" if isinstance(address, int) else f"socket {address}"


@dataclass(frozen=True)
class Door:
    """Where a node takes lines: the port `address` of this machine, or the Unix socket at the path `address`.

    At a port any program may listen. At a socket the system tells who does: that has to be the account of this program,
    root or `tundelca`, or the account with the number `owner`; else a connection is refused as a `Stranger`.
    """

    address: Union[int, str]
    owner: Optional[int] = None

    PEER = struct.Struct("iII")  # what the system tells of who listens: process, account, group

    def __str__(self):
        return place_of(self.address)

    def is_port(self):
        return isinstance(self.address, int)

    def short(self):
        """As one would name it: 7400, @0 or a path."""
        of_package = re.fullmatch(re.escape(RUN) + r"/([^/]+)/node\.socket", str(self.address))
        return str(self.address) if of_package is None else f"@{of_package.group(1)}"

    def connect(self, patience):
        """A connection, and in it what comes within so many seconds each time. An OSError, or a `Stranger`."""
        if self.is_port():
            link = socket.create_connection((LOOPBACK, self.address), timeout=patience)
            link.setsockopt(socket.IPPROTO_TCP, socket.TCP_NODELAY, 1)
            return link
        link, end = socket.socket(socket.AF_UNIX), time.monotonic() + patience
        try:
            link.settimeout(patience)
            while not self.reaches(link):
                if time.monotonic() > end:
                    raise socket.timeout
                time.sleep(0.005)
            self.judge(link)
        except BaseException:
            link.close()
            raise
        return link

    def reaches(self, link):
        """Whether the socket at the path takes the connection now; it doesn't while too many wait there."""
        try:
            link.connect(self.address)
            return True
        except BlockingIOError:
            return False

    def begin(self):
        """A connection that never waits, and may not stand yet. An OSError, or a `Stranger`."""
        link = socket.socket() if self.is_port() else socket.socket(socket.AF_UNIX)
        try:
            link.setblocking(False)
            if self.is_port():
                link.connect_ex((LOOPBACK, self.address))
            else:
                link.connect(self.address)
                self.judge(link)
        except BaseException:
            link.close()
            raise
        return link

    def judge(self, link):
        """Raises a `Stranger` where another account listens than may."""
        account = self.listener(link)[1]
        if account in (os.geteuid(), 0, self.owner):
            return
        with contextlib.suppress(ValueError):
            if account == account_of("tundelca"):
                return
        expected = ["root", "tundelca", *map(named_account, {os.geteuid(), self.owner} - {0, None})]
        raise Stranger(self, account, expected)

    def listener(self, link):
        """Who listens at the socket: its process and its account. No process where that isn't to be seen from here."""
        process, account, _ = self.PEER.unpack(link.getsockopt(socket.SOL_SOCKET, socket.SO_PEERCRED, self.PEER.size))
        return process, account


def door(node, owner=None):
    """The door of a NODE, which is a port, a socket's path, `@NAME` or a cluster file. A ValueError, in a line.

    `@0` is /run/tundelca/0/node.socket, where the package's unit has its node 0 listen. A cluster file stands for its
    client port; /etc/tundelca/0.json for `@0`, where that socket is there. `owner` is an account, by name or number,
    whose node it may be too.
    """
    account = None if owner is None else account_of(str(owner))
    if isinstance(node, Door):
        return node if owner is None else replace(node, owner=account)
    word = str(node)
    if word.isdecimal():
        return Door(int(word), account)
    if word.startswith("@"):
        if not re.fullmatch(r"@[\w.:-]*\w[\w.:-]*", word):
            raise ValueError(f"{word} names no node: @NAME is /run/tundelca/NAME/node.socket")
        return Door(f"{RUN}/{word[1:]}/node.socket", account)
    if is_socket(word):
        return Door(word, account)
    return door_of_file(word, read_cluster(word), account)


def door_of_file(path, text, account=None):
    """The door of a cluster file: its client port, or its node's socket where the package has it."""
    folder, name = os.path.split(os.path.abspath(path))
    socket_path = f"{RUN}/{name[:-len('.json')]}/node.socket"
    is_of_package = folder == ETC and name.endswith(".json") and is_there(socket_path)
    return Door(socket_path if is_of_package else text["client"], account)


def is_there(path):
    """Whether a socket is there, as far as this program may see."""
    try:
        return stat.S_ISSOCK(os.stat(path).st_mode)
    except OSError:
        return False


def is_socket(path):
    """Whether a word names a socket: one that is there, or by a path where nothing is to be seen, and no name of a
    cluster file."""
    return is_there(path) or "/" in path and not os.path.lexists(path) and not path.endswith(".json")


def read_json(path):
    """What a file of JSON holds. A ValueError in one line where it is none."""
    try:
        with open(path, encoding="utf-8") as file:
            return json.load(file)
    except OSError as error:
        raise ValueError(f"{path}: {error.strerror}") from None
    except (ValueError, RecursionError):
        raise ValueError(f"{path}: no JSON") from None


def read_cluster(path):
    """A cluster file, as a dict. A ValueError in one line where something is wrong with it."""
    text = read_json(path)
    if not isinstance(text, dict):
        raise ValueError(f"{path}: no cluster file")
    numbers = ["cluster", "n", "f", "me", "client"]
    lists = ["roles", "keys", "nodes"]
    for name in numbers + lists:
        if type(text.get(name)) is not (int if name in numbers else list):
            raise ValueError(f"{path}: no cluster file, {name} is wrong")
    if type(text.get("hosts", [])) is not list:
        raise ValueError(f"{path}: hosts are a list")
    if not text["me"] < text["n"] <= NODES or not len(text["keys"]) == len(text["nodes"]) == text["n"]:
        raise ValueError(f"{path}: n, me, keys and nodes don't fit together")
    for pair in text["roles"]:
        if type(pair) is not list or [type(number) for number in pair] != [int, int]:
            raise ValueError(f"{path}: roles are pairs [role, owner]")
    return text


class Refused(NodeFault):
    """The node's refusal: its code and name, such as `A3 NotAssigned`, and the member of the line that it is about."""

    def __init__(self, request, answer):
        said = re.sub(r"[^ -~]", "?", str(answer["error"]))
        self.code, _, self.name = said.partition(" ")
        self.member = answer.get("name")
        about = "" if self.member is None else f" {self.member!a}".replace("'", "")
        super().__init__(f"{said}{about}, to {json.dumps(request)}")


@dataclass(frozen=True)
class Published:
    """How far a publication came: so many `commands` are published, the last at place `end` - 1.

    `behind` are the ports, or the paths of sockets, of the nodes that haven't all of them, with how far they said last
    that they are; None where one never said it.
    """

    commands: int
    end: int
    behind: dict

    def __str__(self):
        late = [f"the node at {place_of(address)} " + ("doesn't answer" if reach is None else f"has {reach}")
                for address, reach in self.behind.items()]
        return "; ".join([f"the stream goes up to {self.end}", *late])


class Unfinished(NodeFault):
    """A publication that ended early. `done` is how far it came, and the cause is a `Refused` or an `Unreachable`."""

    def __init__(self, owner, done, total, fault):
        self.done = done
        super().__init__(f"{done.commands} of {total} commands of node {owner} are published: {fault} ({done})")


TWICE = ("its journal was begun twice, an old copy of it was put back, or somebody else has its keys; what it "
         "publishes is lost: publish nothing there, stop it, and begin the cluster anew")


def beyond_published(published, here, elsewhere):
    """In words that more of a node's commands are there than it has published, as of no correct node; else None.

    `here` is how far its stream is at the node itself, `elsewhere` at some other correct node.
    """
    if published >= max(here, elsewhere):
        return None
    more = f"{here:,} of them are there" if here > published else f"{elsewhere:,} of them are at other nodes"
    return f"has published {published:,} of its commands, and {more}"


REFUSES = "F6 BegunTwice"  # to each command, from a node that has found out by itself
OTHER_STREAM = "says that its stream is another than it has published"


def found_twice(status, elsewhere=0):
    """In words that a node was begun twice, by its answer to `status`, as no correct node says; else None.

    It says so by itself where its own stream, as the others' votes bring it back, isn't what it has published. A node
    of before has no such member, and doesn't say it.
    """
    if status.get("begun_twice", False):
        return OTHER_STREAM
    me = status["peers"].index(None)
    return beyond_published(status["published"], status["reaches"][me], elsewhere)


def places_each(roles, nodes):
    """The share of each owner: how many places its stream has, in a cluster of so many nodes. `roles` are pairs of a
    role and its owner; a node that owns none has no places."""
    return OF_OWNERS // (len({owner for _, owner in roles}) * (2 * nodes + 1) + 1)


def told_of_share(used, share, whose="its", who="it has", what="places"):
    """In words that of a share nine tenths are used, or more than there is; None where less is used."""
    if used * 10 < share * 9 or used == 0:
        return None
    if used > share:
        return f"{who} used {used:,} {what}, {used - share:,} more than {whose} share"
    return f"{who} used {100 * used // share} % of {whose} share: {share - used:,} of {share:,} {what} are left"


def shares_told(status):
    """In words of which shares nine tenths are used, by a node's answer to `status`: of owners' places, and of what its
    clients may do. Nothing of a node that doesn't tell its shares."""
    if status.get("shares") is None:
        return []
    used = list(status["reaches"])
    me = status["peers"].index(None)
    used[me] = max(used[me], status["published"])
    rows = [told_of_share(*row, "its", f"node {owner} has") for owner, row in enumerate(zip(used, status["shares"]))]
    rows.append(told_of_share(status["acts"], status["acts_share"], "their", f"clients of node {me} have", "acts"))
    return [row for row in rows if row is not None]


class BegunTwice(Unfinished):
    """The owner has spoken before and doesn't know it: others have voted at the places that it gives its commands."""

    def __init__(self, at, owner, done, seen):
        self.done = done
        said = f"node {owner} at {at} {seen}: {TWICE} ({done.commands:,} of these commands went out)"
        Exception.__init__(self, said)


@dataclass(frozen=True)
class Decision:
    """Whether an access is allowed: in this role, or denied by this rule (N1 to N5).

    `at` is the length of the node's history then; `reach`, of a decision by one owner's word, how far that owner's
    stream reached then, from which the decision follows.
    """

    allow: bool
    at: int
    role: Optional[int] = None
    rule: Optional[str] = None
    reach: Optional[int] = None


# What nodes answer. In a form a whole number stands for those from 0 on that are below it, a dict for an object of
# exactly its members, a function for what it says, and all else for itself.

USER, ROLE, OPERATION, OBJECT, SESSION, COUNT = 1 << 32, 1 << 16, 1 << 16, 1 << 32, 1 << 64, 1 << 64
SHOWN = 80  # letters of a line that is no answer
SHORT = 1 << 16  # letters of a line that is cheap to read, whatever it has
READER = json.JSONDecoder()
ZEROS, TOO_LONG = str.maketrans("123456789", "0" * 9), "0" * 21  # more digits than any number of nodes has
CODE, MEMBER, RULE = map(re.compile, (r"[A-Z]\d{1,2} [A-Za-z]{1,40}", "[a-z]{1,40}", "N[1-5]"))
RULE_OF_ROLES = re.compile("N[3-5]")  # where there is no session


def fits(value, form, request):
    """Whether a value in the answer to the request is of the form."""
    kind = type(form)
    if kind is int:
        return type(value) is int and 0 <= value < form
    if kind is dict:
        return type(value) is dict and len(value) == len(form) and has_all(value, form, request)
    return form(value, request) if callable(form) else type(value) is kind and value == form


def has_all(value, form, request):
    """Whether an object has the form's members, each of its form. In one loop, as clients hear many answers."""
    for name, due in form.items():
        if name not in value:
            return False
        item = value[name]
        if type(due) is int:
            if type(item) is not int or not 0 <= item < due:
                return False
        elif not fits(item, due, request):
            return False
    return True


def one_of(*forms):
    """A form: what is of one of these."""
    return lambda value, request: any(fits(value, form, request) for form in forms)


def or_none(form):
    """A form: None, or what this function says."""
    return lambda value, request: value is None or form(value, request)


def by(name, forms):
    """A form: an object of the members of the form for what it has under the name, a text or a truth value."""

    def is_so(value, request):
        kind = value.get(name) if type(value) is dict else None
        form = forms.get(kind) if type(kind) in (str, bool) else None
        return form is not None and len(value) == 1 + len(form) and has_all(value, form, request)

    return is_so


def matches(pattern):
    """A form: a text that is of the pattern."""
    return lambda value, _: type(value) is str and pattern.fullmatch(value) is not None


def at_least(form):
    """A form: an object with these members, and others that a later node may have."""
    return lambda value, request: type(value) is dict and has_all(value, form, request)


def list_of(form, most):
    """A form: so many items of the form at most."""
    return lambda value, request: type(value) is list and len(value) <= most and all(
        fits(item, form, request) for item in value)


def is_ascending(items):
    """Whether each item is below the next."""
    return all(map(operator.lt, items, itertools.islice(items, 1, None)))


def numbers(end):
    """A form: an ascending list of numbers below the end. Lists may be long, so no item is looked at by itself."""
    return lambda value, _: type(value) is list and len(value) <= ITEMS and set(map(type, value)) <= {int} and \
        is_ascending(value) and (not value or 0 <= value[0] and value[-1] < end)


def pairs(first, second, most=ITEMS):
    """A form: an ascending list of pairs of a number below the one and a number below the other."""

    def are_pairs(value, _):
        return type(value) is list and len(value) <= most and set(map(type, value)) <= {list} and \
            set(map(len, value)) <= {2} and set(map(type, itertools.chain.from_iterable(value))) <= {int} and \
            is_ascending(value) and (not value or 0 <= value[0][0] and value[-1][0] < first) and \
            0 <= min(map(operator.itemgetter(1), value), default=0) and \
            max(map(operator.itemgetter(1), value), default=0) < second

    return are_pairs


def is_page(value, request):
    """Sessions with their users: the first of the ids from the one on that was asked for."""
    return pairs(SESSION, USER, PAGE)(value, request) and is_ascending([session for session, _ in value]) and (
        not value or value[0][0] >= max(1, request.get("from", 0)))


def are_decided(value, request):
    """A decision on each access about which was asked."""
    return list_of(DECIDED, ASKED)(value, request) and len(value) == len(request["asked"])


def are_active(value, request):
    """The roles of a session, in the order of their activation."""
    return list_of(ROLE, ACTIVE)(value, request) and len(set(value)) == len(value)


FLAG = one_of(True, False)
PEER = at_least({"connected": FLAG, "heard": FLAG, **dict.fromkeys(("again", "lost", "unopened", "waiting"), COUNT)})
JOURNAL = at_least({"sound": FLAG, **dict.fromkeys(("last", "mean", "syncs", "worst"), COUNT)})
STATUS = at_least({"at": EVENTS + 1, "journal": or_none(JOURNAL), "limit": EVENTS + 1,
                   "peers": list_of(or_none(PEER), NODES), "published": PLACES + 1,
                   "reaches": list_of(PLACES + 1, NODES), "sessions": SESSIONS + 1, "unopened": COUNT})
SHARES = {"acts": EVENTS + 1, "acts_share": or_none(one_of(EVENTS + 1)), "shares": or_none(list_of(PLACES + 1, NODES))}


def is_status(value, request):
    """How a node stands: its parts fit together, and one of its peers is itself. Nodes of before don't say `f`, nor
    whether they were begun twice, nor their shares."""
    return STATUS(value, request) and FLAG(value.get("begun_twice", False), request) and \
        are_shares(value, request) and value["peers"].count(None) == 1 and \
        len(value["peers"]) == len(value["reaches"]) and value["at"] <= value["limit"] > 0 and \
        fits(value.get("f", 0), (len(value["peers"]) + 2) // 3, request)


def are_shares(value, request):
    """Whether a status tells shares, which fit together; or none, as nodes of before do."""
    told = {name: value[name] for name in SHARES if name in value}
    return not told or fits(told, SHARES, request) and (told["acts_share"] is None) == (told["shares"] is None) and (
        told["shares"] is None or len(told["shares"]) == len(value["peers"]))


def verdicts(rule, **members):
    """A form: a decision with these members, in a role or by a rule of this pattern."""
    return by("allow", {True: {**members, "role": ROLE}, False: {**members, "rule": matches(rule)}})


DECIDED = verdicts(RULE_OF_ROLES, reach=PLACES + 1)
COMMANDS = {  # what is published, each by its `op`
    "assign": {"role": ROLE, "user": USER}, "deassign": {"role": ROLE, "user": USER},
    "grant": {"object": OBJECT, "operation": OPERATION, "role": ROLE},
    "revoke": {"object": OBJECT, "operation": OPERATION, "role": ROLE}, "clear": {"role": ROLE},
}
LISTINGS = {  # each with the member that is its list, and with what that is
    "assigned_users": ("users", numbers(USER)), "assigned_roles": ("roles", numbers(ROLE)),
    "role_permissions": ("permissions", pairs(OPERATION, OBJECT)),
    "user_permissions": ("permissions", pairs(OPERATION, OBJECT)),
    "role_operations": ("operations", numbers(OPERATION)), "user_operations": ("operations", numbers(OPERATION)),
    "session_roles": ("roles", are_active), "session_permissions": ("permissions", pairs(OPERATION, OBJECT)),
}
FORMS = {  # of the answer to each line
    **dict.fromkeys(COMMANDS, {"issued": PLACES, "reach": PLACES + 1}),
    **{op: {"at": EVENTS + 1, name: items} for op, (name, items) in LISTINGS.items()},
    "open": {"session": SESSION}, **dict.fromkeys(("activate", "drop", "close"), {"done": True}),
    "check": verdicts(RULE, at=EVENTS + 1), "decide": verdicts(RULE_OF_ROLES, at=EVENTS + 1, reach=PLACES + 1),
    "decide_all": {"at": EVENTS + 1, "decisions": are_decided},
    "reach": {"reach": PLACES + 1}, "again": {"again": 4}, "stop": {"stopped": True}, "status": is_status,
    "command": {"command": or_none(by("op", COMMANDS))},
    "sessions": {"at": EVENTS + 1, "sessions": is_page},
}
QUESTIONS = {"check", "decide", "decide_all", "reach", "status", "command", "sessions", *LISTINGS}
REFUSAL = one_of({"error": matches(CODE)}, {"error": matches(CODE), "name": matches(MEMBER)})
LONGEST = {  # bytes of an answer's line, without its end
    "status": 1 << 16, "sessions": 1 << 14, "decide_all": 1 << 13, **dict.fromkeys(LISTINGS, 24 << 20),
}
LONGEST_ELSE = 1 << 10  # of each other answer's


def read_answer(request, line, items=ITEMS):
    """The answer in a line; None where no node says that to this request. A refusal has a member `error`.

    A line that is long is looked through first, so that it takes no more memory than a listing of so many items.
    """
    if len(line) > SHORT and (line.count(",") > 2 * items or line.count("[") > items + 1 or line.count('"') > 4
                              or TOO_LONG in line.translate(ZEROS)):
        return None
    try:
        answer, end = READER.raw_decode(line)
    except (ValueError, RecursionError):
        return None
    if end < len(line):
        return None
    form = REFUSAL if type(answer) is dict and "error" in answer else FORMS.get(request.get("op"), REFUSAL)
    return answer if fits(answer, form, request) else None


class Turn:
    """A thread's questions on a client, up to their last answer. Where it waits, `begins` is locked until then; they
    went out once more where it `is_renewed`."""

    __slots__ = "thread", "begins", "is_renewed"

    def __init__(self):
        self.thread, self.begins, self.is_renewed = threading.get_ident(), None, False


class Turns:
    """Whose turn it is. One begins as the one before ends, in the order in which their threads came."""

    def __init__(self):
        # A thread may come here again amid this, where an ask_all that nobody holds any more is thrown away just then.
        self.guard, self.now, self.waiting = threading.RLock(), None, collections.deque()

    def begin(self, turn, patience):
        """Whether the turn begins within so many seconds. A RuntimeError where this thread has the present one."""
        with self.guard:
            if self.now is None:
                self.now = turn
                return True
            is_own = self.now.thread == turn.thread
        if is_own:
            raise RuntimeError("this thread asks on a client amid an ask_all of its own, which isn't at its end")
        turn.begins = threading.Lock()
        turn.begins.acquire()
        with self.guard:
            self.waiting.append(turn)
            self.pass_on()
        turn.begins.acquire(timeout=patience)
        return self.now is turn

    def end(self, turn):
        """Ends the turn, whether or not it has begun."""
        with self.guard:
            if self.now is turn:
                self.now = None
                self.pass_on()
            elif turn in self.waiting:
                self.waiting.remove(turn)

    def pass_on(self):
        """Has the turn that waits longest begin, if there is none."""
        if self.now is None and self.waiting:
            self.now = self.waiting.popleft()
            self.now.begins.release()


class Incoming(io.RawIOBase):
    """What comes on a connection; nothing more from the moment `end` on, where there is one."""

    def __init__(self, connection):
        super().__init__()
        self.connection, self.end, self.reads = connection, None, 0

    def readable(self):
        return True

    def readinto(self, room):
        if self.end is not None and self.reads:
            self.connection.settimeout(max(self.end - time.monotonic(), 0.001))
        self.reads += 1
        return self.connection.recv_into(room)


class Client:
    """A connection to a node's door: one line, one answer, in order. `patience` is in seconds, an answer.

    `node` and `owner` are as for `door`. A client is one thread's at a time, from a question to the end of its answer,
    so threads may share it: they take turns in the order in which they came. While an `ask_all` isn't at its end, other
    threads wait for `patience` at most, and then nothing went out; the thread that began it gets a RuntimeError for
    each other question. What ends a question before its whole answer ends the connection, an interrupt too, so that no
    late answer is taken for another's. Only where a connection that has brought an answer has come to its end do
    `QUESTIONS` go out once more, over a new one: they change nothing. A command never does, since it may be obeyed.
    """

    def __init__(self, node, patience=10.0, owner=None):
        self.door, self.patience, self.turns = door(node, owner), patience, Turns()
        self.items = ITEMS  # of the next listing, at most
        self.is_over = False  # it was closed, or has failed
        self.connect(patience)

    def connect(self, patience):
        """Makes the connection."""
        try:
            self.socket = self.door.connect(patience)
        except (OSError, OverflowError) as error:
            raise Unreachable(f"no node answers at {self.door}: {words_of(error)}") from None
        self.has_answered = False
        self.incoming = Incoming(self.socket)
        self.lines = io.TextIOWrapper(io.BufferedReader(self.incoming, 65_536), "ascii", "replace", newline="\n")

    def renew(self, until):
        """Makes the connection anew, which has come to its end, by the moment."""
        self.drop()
        self.connect(max(0.001, min(self.patience, until - time.monotonic())))
        self.socket.settimeout(self.patience)
        if self.is_over:  # another thread has closed the client meanwhile
            self.fail("isn't asked any more: the client is closed")

    def __enter__(self):
        return self

    def __exit__(self, *_):
        self.close()

    def close(self):
        """Ends the connection, also for a thread that waits for an answer. Sessions stay open."""
        self.is_over = True
        self.drop()

    def drop(self):
        """Ends the connection that there is."""
        with contextlib.suppress(OSError):
            self.socket.shutdown(socket.SHUT_RDWR)
        self.lines.close()
        self.socket.close()

    def ask(self, op, **members):
        """The answer to a request, as a dict. Raises `Refused` or `Unreachable`."""
        return self.asked({"op": op, **members})

    def asked(self, request, until=None):
        """The answer to a request that is a dict, which has to be there by the moment, as for `ask_all`."""
        turn, is_due = Turn(), True
        try:
            self.begin(turn)
            answer = self.answered(turn, [request], [request], until)
            is_due = False
        finally:
            try:
                self.leave(turn, is_due)
            except BaseException:  # an interrupt just here: once more
                self.leave(turn, True)
                raise
        if "error" in answer:
            raise Refused(request, answer)
        return answer

    def answered(self, turn, some, waiting, until):
        """Sends some, which are the last of those that wait, and gives the answer to the first of these.

        Where the connection has come to its end, all that wait go out once more, if they may.
        """
        end = time.monotonic() + self.patience
        try:
            if some:
                self.send(some)
            return self.answer(waiting[0], until)
        except Ended:
            if turn.is_renewed or not self.goes_again(waiting):
                raise
        end, turn.is_renewed = end if until is None else min(end, until), True
        self.renew(end)
        self.send(waiting)
        return self.answer(waiting[0], end)

    def goes_again(self, requests):
        """Whether requests may go out once more, where the connection has come to its end."""
        return self.has_answered and not self.is_over and all(request.get("op") in QUESTIONS for request in requests)

    def ask_all(self, requests, ahead=200, until=None):
        """The answers to many requests, in their order, as dicts; a refusal is one with a member `error`.

        Up to so many lines go out ahead of the answers, so nobody waits for a way there and back each time. All are
        there by the moment `until`, of time.monotonic(). Where it is left before its end, the connection ends.
        """
        asked, waiting, turn = iter(requests), collections.deque(), Turn()
        try:
            self.begin(turn)
            while True:
                some = list(itertools.islice(asked, ahead - len(waiting)))
                waiting.extend(some)
                if not waiting:
                    return
                for _ in range((len(waiting) + 1) // 2):
                    answer = self.answered(turn, some, waiting, until)
                    waiting.popleft()
                    some = []
                    yield answer
        finally:
            try:
                self.leave(turn, bool(waiting))
            except BaseException:
                self.leave(turn, True)
                raise

    def begin(self, turn):
        """Waits until the turn begins, for `patience` at most."""
        if not self.turns.begin(turn, self.patience):
            raise Unreachable(f"other threads ask the node at {self.door} on this client, for longer than "
                              f"{self.patience:g} s: nothing went out")

    def leave(self, turn, is_due):
        """Ends the turn, and before it the connection if an answer is due."""
        if is_due and self.turns.now is turn:
            self.close()
        self.turns.end(turn)

    def send(self, requests):
        """Sends requests as lines."""
        lines = b"".join(json.dumps(request).encode("ascii") + b"\n" for request in requests)
        try:
            self.socket.sendall(lines)
        except OSError as error:
            self.fail(f"didn't take {json.dumps(requests[0])}: {words_of(error)}", kind_of(error))

    def answer(self, request, until=None):
        """The next line, which is the answer to this request, as a dict."""
        line = self.line(request, until)
        answer = read_answer(request, line, self.items)
        if answer is None:
            self.unfit(request, line)
        self.has_answered = True
        return answer

    def line(self, request, until):
        """The next line, which has to be there whole within `patience`, and by the moment."""
        now, most = time.monotonic(), LONGEST.get(request.get("op"), LONGEST_ELSE)
        self.incoming.end, self.incoming.reads = now + self.patience, 0
        if until is not None and until < self.incoming.end:
            self.incoming.end, self.incoming.reads = until, 1
        try:
            line = self.lines.readline(most + 1)
        except (OSError, ValueError) as error:
            self.fail(f"didn't answer {json.dumps(request)}: {words_of(error)}", kind_of(error))
        if self.incoming.reads > 1:
            self.socket.settimeout(self.patience)
        self.incoming.end = None
        if line.endswith("\n"):
            return line[:-1]
        if len(line) <= most:
            self.fail(f"closed the connection at {json.dumps(request)}", Ended)
        self.unfit(request, line)

    def fail(self, what, kind=Unreachable):
        """Ends the connection, and raises `Unreachable`; where it is an `Ended`, there may be another one."""
        if kind is Ended:
            self.drop()
        else:
            self.close()
        raise kind(f"the node at {self.door} {what}")

    def unfit(self, request, line):
        """Ends the connection, and raises `Unfit`."""
        self.close()
        raise Unfit(self.door, request, line)

    def publish(self, commands, owner, others=(), may_lie=0, patience=30.0, deadline=None, in_order=True, told=None):
        """Publishes the commands, such as {"op": "clear", "role": 2}, each once and in their order. A `Published`.

        This is the node of `owner`, `others` are other nodes, as for `door`, and of all these at most `may_lie` lie or
        stand still: those that are behind the others are left out. No command goes out at a place more than 32 beyond
        what the remaining nodes have delivered, and at the end they have delivered all, and each stands in the owner's
        stream at the place that it was given. Raises `Unfinished` where a command is refused, where nothing moves for
        `patience` seconds, and `deadline` seconds after the begin; and `BegunTwice` where the owner has been further
        than it has published, before anything goes out, where another command stands at such a place, and where the
        owner says that it was begun twice, before, meanwhile or behind all that.

        Where their order doesn't matter, as of assignments and grants alone, `in_order` = False has many go out at
        once. `told` is called with how many are published, now and then.
        """
        commands = list(commands)
        for command in commands:
            if command["op"] not in PUBLISHED:
                raise ValueError(f"nothing is published by {json.dumps(command)}")
        with contextlib.closing(Publication(self, owner, others, may_lie, patience, deadline)) as publication:
            try:
                publication.begin()
                publication.issue(commands, AHEAD if not in_order else 1, told)
                publication.arrive()
                publication.read_back()
            except (Refused, Unreachable) as fault:
                if isinstance(fault, Refused):
                    with contextlib.suppress(NodeFault):
                        publication.linger()
                raise Unfinished(owner, publication.done(), len(commands), fault) from fault
            return publication.done()

    def clear(self, role):
        """Ends all assignments and grants of the role, at the node that owns it. The place of the command."""
        return self.ask("clear", role=role)["issued"]

    def open(self, user):
        """A new session of the user, at this node alone."""
        return self.ask("open", user=user)["session"]

    def check(self, session, user, operation, object):
        """The decision on an access."""
        answer = self.ask("check", session=session, user=user, operation=operation, object=object)
        return Decision(answer["allow"], answer["at"], answer.get("role"), answer.get("rule"))

    def decide(self, user, owner, operation, object):
        """The decision on an access by this owner's word alone: as of a session in which just its roles are active.

        There is no session, and nothing is recorded. Only `tundelca` answers this and `decide_all`.
        """
        answer = self.ask("decide", user=user, owner=owner, operation=operation, object=object)
        return Decision(answer["allow"], answer["at"], answer.get("role"), answer.get("rule"), answer["reach"])

    def decide_all(self, asked, ahead=20):
        """The decisions on many accesses, in their order; each is asked by its user, owner, operation and object.

        A line asks about 100 at most, which are decided together, by one history. Up to so many lines go out ahead.
        """
        rows = iter(asked)
        lines = iter(lambda: list(map(list, itertools.islice(rows, A_LINE))), [])
        requests, sent = itertools.tee({"op": "decide_all", "asked": some} for some in lines)
        for answer, request in zip(self.ask_all(sent, ahead), requests):
            if "error" in answer:
                raise Refused(request, answer)
            for one in answer["decisions"]:
                yield Decision(one["allow"], answer["at"], one.get("role"), one.get("rule"), one["reach"])

    def listing(self, op, **members):
        """The items of a review, such as `assigned_users` of a role; permissions are pairs [operation, object]."""
        return self.ask(op, **members)[LISTINGS[op][0]]

    def reach(self, owner):
        """How many commands of the owner the node has delivered without a gap."""
        return self.ask("reach", owner=owner)["reach"]

    def reaches(self, until=None):
        """How many commands of each owner the node has delivered, by the moment, or else told within `patience`."""
        until = time.monotonic() + self.patience if until is None else until
        answers = self.ask_all(({"op": "reach", "owner": owner} for owner in range(NODES)), NODES, until)
        return [answer["reach"] for answer in answers if "error" not in answer]

    def length(self, role=0):
        """How many events the node has recorded. Its limit is 4,194,304."""
        return self.ask("assigned_users", role=role)["at"]

    def stream(self, owner, start=0, end=PLACES):
        """The commands of the owner from a place to another, as far as the node has them, as they stand in `publish`.

        Each thousand of them is told within `patience`. Only `tundelca` answers this and `sessions`.
        """
        end = min(end, self.reach(owner))
        for first in range(start, end, TOGETHER):
            yield from self.commands(owner, range(first, min(first + TOGETHER, end)), time.monotonic() + self.patience)

    def commands(self, owner, places, until):
        """The commands of the owner at these places, by the moment; None where the node has none."""
        questions = [{"op": "command", "owner": owner, "place": place} for place in places]
        answers = list(self.ask_all(questions, until=until))
        for question, answer in zip(questions, answers):
            if "error" in answer:
                raise Refused(question, answer)
        return [answer["command"] for answer in answers]

    def sessions(self, start=0):
        """The open sessions from an id on, ascending, each as a pair of its id and its user; told within `patience`."""
        until, found = time.monotonic() + self.patience, []
        while True:
            request = {"op": "sessions", "from": start}
            page = self.asked(request, until)["sessions"]
            found += map(tuple, page)
            if len(page) < PAGE or page[-1][0] + 1 == SESSION:
                return found
            if len(found) > SESSIONS + MEANWHILE:
                self.unfit(request, f"with those before {len(found):,} sessions")
            start = page[-1][0] + 1

    def wait_for_reach(self, owner, reach, patience=None):
        """Waits until the node has delivered so many commands of the owner."""
        deadline = time.monotonic() + (self.patience if patience is None else patience)
        while self.reach(owner) < reach:
            if time.monotonic() > deadline:
                raise Unreachable(f"the node at {self.door} has not {reach} commands of node {owner} yet")
            time.sleep(0.005)


class Watched:
    """A node that says how far it has an owner's stream. Nobody waits for it: it may stand still, or say anything."""

    LONGEST = 200  # bytes of an answer

    def __init__(self, node, owner):
        self.door, self.reach = door(node), None
        self.question = {"op": "reach", "owner": owner}
        self.socket, self.text, self.is_asked, self.next_try = None, b"", False, 0.0
        self.is_odd = False  # the last that it said is what no node says

    def ask(self):
        """Asks, if the last question is answered. A connection that broke is made anew after a second."""
        try:
            if self.socket is None and time.monotonic() >= self.next_try:
                self.next_try = time.monotonic() + 1.0
                self.socket = self.door.begin()
            if self.socket is not None and not self.is_asked:
                self.socket.send(json.dumps(self.question).encode("ascii") + b"\n")
                self.is_asked = True
        except BlockingIOError:
            pass  # not connected yet
        except (OSError, Stranger):
            self.close()

    def take(self):
        """Takes what it said. What is no answer ends the connection."""
        try:
            came = self.socket.recv(self.LONGEST)
            self.text += came
            if self.text.endswith(b"\n") or len(self.text) > self.LONGEST:
                answer = read_answer(self.question, self.text[:-1].decode("ascii", "replace"))
                self.is_odd = answer is None
                self.reach, self.text, self.is_asked = (answer or {}).get("reach", self.reach), b"", False
            if not came or self.is_odd:
                self.close()
        except BlockingIOError:
            pass
        except OSError:
            self.close()

    def close(self):
        if self.socket is not None:
            self.socket.close()
        self.socket, self.text, self.is_asked = None, b"", False


class Publication:
    """Commands on their way from an owner to the nodes. What it keeps to is said at `Client.publish`."""

    FIRST = 2.0  # seconds for the others' first answers, before it begins without them
    LAST = 2.0  # seconds for what is on its way at the end, before those that are behind are named

    def __init__(self, node, owner, others, may_lie, patience, deadline):
        self.node, self.owner, self.patience, self.may_lie = node, owner, patience, may_lie
        self.given, self.can_tell = [], True  # each command with its place; the node tells what stands there
        self.watched = [Watched(node, owner) for node in others]
        self.quorum = max(1, 1 + len(self.watched) - may_lie)
        self.commands = self.end = self.reach = self.front = 0
        self.moved = time.monotonic()
        self.deadline = float("inf") if deadline is None else self.moved + deadline

    def begin(self):
        """Hears how far all are. Raises `BegunTwice` where the owner has published less than it or the others have.

        A correct node's own stream never reaches beyond what it has published; and where more of the others than may
        lie have more of it, one of these is correct. The owner is asked last, so that it has had time to publish that.
        """
        first = min(time.monotonic() + min(self.FIRST, self.patience), self.deadline)
        self.hear()
        while sum(one.reach is not None for one in self.watched) < self.quorum - 1 and time.monotonic() < first:
            self.hear()
        elsewhere = self.elsewhere()
        try:
            status = self.node.ask("status")
        except Refused:
            self.can_tell = False
            return
        me = status["peers"].index(None)
        if me != self.owner:
            raise Unreachable(f"the node at {self.node.door} says that it is node {me}, and not {self.owner}")
        if seen := found_twice(status, elsewhere):
            self.twice(seen)

    def elsewhere(self):
        """How far the owner's stream is at more of the others than may lie, and so at a correct one."""
        heard = sorted((one.reach or 0 for one in self.watched), reverse=True)
        return heard[self.may_lie] if self.may_lie < len(heard) else 0

    def twice(self, seen):
        """Raises `BegunTwice`."""
        raise BegunTwice(self.node.door, self.owner, self.done(), seen)

    def read_back(self):
        """Sees that each command stands at its place in the owner's stream, and that the owner, which may have found
        out meanwhile, doesn't say that it was begun twice. A node of role_daemon can't be asked."""
        for first in range(0, len(self.given) if self.can_tell else 0, TOGETHER):
            some = self.given[first:first + TOGETHER]
            until = min(time.monotonic() + self.patience, self.deadline)
            there = self.node.commands(self.owner, [place for place, _ in some], until)
            for (place, command), stands in zip(some, there):
                if stands is None or any(command.get(name) != value for name, value in stands.items()):
                    self.twice(f"has {json.dumps(stands)} at place {place:,}, where it published {json.dumps(command)}")
        if self.can_tell and (seen := found_twice(self.node.ask("status"))):
            self.twice(seen)

    def issue(self, commands, most, told):
        """Has the commands published as soon as they may be, at most so many at once. `told` hears how many are."""
        left, after = collections.deque(commands), time.monotonic()
        while left:
            while self.end - self.front >= AHEAD:
                self.look()
            self.give(left, min(most, AHEAD - (self.end - self.front)))
            if told is not None and time.monotonic() >= after:
                told(self.commands)
                after = time.monotonic() + 0.1

    def give(self, left, most):
        """Has up to so many published that are left. Those for which it is busy are left as they were."""
        some, busy, refused, taken = [left.popleft() for _ in range(min(most, len(left)))], [], None, None
        before = max(self.reach, self.elsewhere())
        with contextlib.closing(self.node.ask_all(some)) as answers:
            for command, answer in zip(some, answers):
                if "error" not in answer:
                    place, reach = answer["issued"], answer["reach"]
                    self.commands, self.end, self.moved = self.commands + 1, max(self.end, place + 1), time.monotonic()
                    self.given.append((place, command))
                    taken = taken or beyond_published(place, before, 0) or beyond_published(place + 1, reach, 0)
                elif answer["error"] == "F3 Busy":
                    busy.append(command)
                elif answer["error"] == REFUSES:
                    taken = taken or f"answers {REFUSES}"
                else:
                    refused = refused or Refused(command, answer)
        if taken is not None:
            self.twice(taken)
        if refused is not None:
            raise refused
        if busy:  # others publish here too
            left.extendleft(reversed(busy))
            self.look()

    def arrive(self):
        """Waits until all is delivered, and not long for those that are left out."""
        while self.front < self.end:
            self.look()
        self.linger()

    def linger(self):
        """Waits for what is on its way, but not long."""
        last = min(time.monotonic() + self.LAST, self.deadline)
        while self.behind() and time.monotonic() < last:
            self.hear()

    def hear(self):
        """Hears how far the nodes are, and waits a moment for those that were asked."""
        for one in self.watched:
            one.ask()
        self.reach = self.node.reach(self.owner)
        self.end = max(self.end, self.reach)
        asked = {one.socket: one for one in self.watched if one.is_asked}
        for come in select.select(list(asked), [], [], 0.001)[0]:
            asked[come].take()
        heard = sorted([self.reach, *(one.reach or 0 for one in self.watched)], reverse=True)
        front = min(self.reach, heard[self.quorum - 1])
        if front > self.front:
            self.front, self.moved = front, time.monotonic()

    def look(self):
        """Hears how far the nodes are. Raises `Unreachable` where they aren't further for too long."""
        self.hear()
        now = time.monotonic()
        if now > self.deadline:
            raise Unreachable("the deadline is over")
        if now > self.moved + self.patience:
            odd = "".join(f"; a node answers what no node says: {one.door}" for one in self.watched if one.is_odd)
            raise Unreachable(f"for {self.patience:g} seconds too few nodes say that they have more than {self.front}"
                              f"{odd}")

    def behind(self):
        """The addresses of the nodes that haven't all, and how far they are."""
        heard = [(one.door.address, one.reach) for one in self.watched]
        return {address: reach for address, reach in [(self.node.door.address, self.reach), *heard]
                if reach is None or reach < self.end}

    def done(self):
        return Published(self.commands, self.end, self.behind())

    def close(self):
        for one in self.watched:
            one.close()


def free_ports(count):
    """So many ports on which nobody listens now, below those that the system gives to outgoing connections."""
    found = set()
    while len(found) < count:
        port = random.randrange(10_000, 32_000)
        with socket.socket() as tried:
            try:
                tried.bind((LOOPBACK, port))
            except OSError:
                continue
        found.add(port)
    return list(found)


def cluster_files(folder, roles, nodes, clients, may_lie, cluster=1, hosts=None):
    """Writes a cluster file for each node, readable by you alone, with a new key for each pair of nodes. Their paths.

    `roles` are pairs of a role and its owner, `nodes` and `clients` the ports of all nodes for frames and for clients,
    `hosts` their addresses where they aren't on one machine. A cluster that is begun anew takes new keys, which this
    makes, and best another number. Where one of the files is there already, that is a FileExistsError, and none is
    written.
    """
    names = range(len(nodes))
    keys = {(a, b): secrets.token_hex(32) for a in names for b in names if a <= b}
    paths = [os.path.join(folder, f"node{me}.json") for me in names]
    for path in paths:
        if os.path.lexists(path):
            raise FileExistsError(errno.EEXIST, "it is there, and no file was written", path)
    for me, path in enumerate(paths):
        text = {
            "cluster": cluster,
            "n": len(nodes),
            "f": may_lie,
            "me": me,
            "roles": [list(pair) for pair in roles],
            "keys": [keys[min(me, other), max(me, other)] for other in names],
            "nodes": list(nodes),
            "client": clients[me],
            **({} if hosts is None else {"hosts": list(hosts)}),
        }
        write_secret(path, json.dumps(text))
    return paths


def write_secret(path, text):
    """Writes a new file that only you may read. A FileExistsError where one is there."""
    descriptor = os.open(path, os.O_WRONLY | os.O_CREAT | os.O_EXCL, 0o600)
    with open(descriptor, "w", encoding="ascii") as file:
        os.fchmod(descriptor, 0o600)
        file.write(text)


# What a node's exit status says.
STATUSES = {
    0: "it was stopped",
    2: "its words",
    3: "its cluster file",
    4: "a port, a socket or a journal that is held, or a failed listener or disk",
    5: "want of memory",
    6: "its journal",
}


def keeps_journals(program):
    """Whether the program is `tundelca`, which has to be told where a node keeps its state; `role_daemon` has no words
    for that."""
    return os.path.basename(program) == "tundelca"


def begin(program, path, journal):
    """Begins the journal of the node of a cluster file: once, before the node's first start."""
    subprocess.run([program, "journal", "--cluster", path, "--journal", journal], check=True, stdin=subprocess.DEVNULL)


def start(program, path, patience=10.0, journal=None):
    """Starts the node of a cluster file, and waits until its client port answers. The process.

    Without a journal, which only `tundelca` can have, the node keeps all in memory.
    """
    if not os.path.exists(program):
        raise FileNotFoundError(f"{program} is not there: run `rt run` in crates/{os.path.basename(program)} first")
    with open(path, encoding="ascii") as file:
        port = json.load(file)["client"]
    words = [program, "serve", "--cluster", path]
    if journal is not None:
        words += ["--journal", journal]
    elif keeps_journals(program):
        words += ["--in-memory"]
    process = subprocess.Popen(words, stdin=subprocess.DEVNULL)
    deadline = time.monotonic() + patience
    while True:
        if process.poll() is not None:
            why = STATUSES.get(process.returncode, "a signal")
            raise NodeFault(f"the node of {path} ended with status {process.returncode}: {why}")
        try:
            Client(port).close()
            return process
        except Unreachable:
            if time.monotonic() > deadline:
                process.kill()
                raise
            time.sleep(0.01)


def stop(node, process=None, patience=10.0):
    """Stops a node. Its exit status, where its process is given."""
    with Client(node, patience) as client:
        client.ask("stop")
    return None if process is None else process.wait(patience)


if __name__ == "__main__":
    import tundelca_ctl

    tundelca_ctl.begin()
