"""The policy file: whose word counts for each type of thing, and which number each name is.

What is wrong with one is a `Wrong`, which names the place. Nothing here has a socket.
"""
import hashlib
import json
import os
import re
import stat
from dataclasses import dataclass
from typing import Any, Callable, Dict, List, Optional, Sequence, Tuple

OWNERS, ROLES, ACTIONS, NUMBERS = 128, 65_408, 65_535, 1 << 32  # each number is below
MOST_BYTES = 64 << 20  # of a file
MOST_LETTERS = 256  # of a name
NUMBER = re.compile("0|[1-9][0-9]{0,9}")
DIGEST = re.compile("[0-9a-f]{64}")
TOKEN = re.compile("[!#$%&'*+.^_`|~0-9A-Za-z-]{1,64}")  # as HTTP has it: a method, a field's name
SEGMENT = re.compile("[A-Za-z0-9._~!$&'()*+,=:@-]+")  # of a path, without what paths can lie with
FIELDS_OF_HTTP = {"authorization", "connection", "content-length", "content-type", "expect", "host", "te", "trailer",
                  "transfer-encoding", "upgrade", "x-original-method", "x-original-uri", "x-request-id"}
ID = "{id}"


class Wrong(Exception):
    """The policy is refused: at which place of it, and why."""

    def __init__(self, place: str, why: str) -> None:
        self.place = place
        super().__init__(f"{place}: {why}" if place else why)


class Members(Dict[str, Any]):
    """A JSON object, which remembers the first name that stands twice in it."""

    twice: Optional[str] = None


def members_of(pairs: List[Tuple[str, Any]]) -> Members:
    """The object of these members."""
    made = Members()
    for name, value in pairs:
        if name in made and made.twice is None:
            made.twice = name
        made[name] = value
    return made


@dataclass(frozen=True)
class Ids:
    """Which number an id is: by a table of names, or as itself, where it is a number of the range."""

    table: Optional[Dict[str, int]] = None
    first: int = 0
    last: int = -1

    def number(self, name: str) -> Optional[int]:
        """The number of an id; None where it is unknown."""
        if self.table is not None:
            return self.table.get(name)
        if NUMBER.fullmatch(name) is None:
            return None
        number = int(name)
        return number if self.first <= number <= self.last else None

    def has(self, number: int) -> bool:
        """Whether some id is this number."""
        return number in self.table.values() if self.table is not None else self.first <= number <= self.last

    def ranges(self) -> List[Tuple[int, int, str]]:
        """Its numbers, as ranges with a name for each."""
        if self.table is None:
            return [(self.first, self.last, "")]
        return [(number, number, name) for name, number in self.table.items()]


@dataclass(frozen=True)
class Kind:
    """A type of thing: whose roles count for it, its ids, the object that stands for all of it, and its actions."""

    owner: int
    ids: Ids
    all: Optional[int]
    actions: Dict[str, int]


@dataclass(frozen=True)
class Route:
    """Which requests of a service ask for an action: by method and path, where one segment may be the thing's id."""

    method: str
    segments: Tuple[str, ...]
    action: str
    kind: str

    def is_of_one(self) -> bool:
        """Whether it is about one thing, and not about all of its type."""
        return ID in self.segments

    def id_in(self, segments: Sequence[str]) -> Optional[str]:
        """The id in a path's segments, empty where the route is about all; None where it isn't of this route."""
        found = ""
        if len(segments) != len(self.segments):
            return None
        for due, came in zip(self.segments, segments):
            if due == ID:
                found = came
            elif due != came:
                return None
        return found


@dataclass(frozen=True)
class Forward:
    """What a proxy's requests ask: the type of their subjects, the header that names one, and the routes."""

    subject: str
    header: str
    routes: Tuple[Route, ...]


@dataclass(frozen=True)
class Policy:
    """A policy that was read. `callers` has for each digest of a token whose it is."""

    subjects: Dict[str, Ids]
    kinds: Dict[str, Kind]
    roles: Dict[int, str]
    callers: Dict[str, str]
    forward: Optional[Forward]
    fingerprint: str

    def role(self, number: int) -> str:
        """The name of a role; its number where the policy names it not."""
        return self.roles.get(number, str(number))

    def owners(self) -> Dict[int, str]:
        """The owners that it speaks of, each with a type of its own."""
        return {kind.owner: name for name, kind in self.kinds.items()}

    def fit(self, nodes: int) -> None:
        """Raises `Wrong` where an owner is no node of a cluster of so many."""
        for owner, name in self.owners().items():
            if owner >= nodes:
                raise Wrong(f"types.{name}.owner", f"the cluster has {nodes} nodes, and {owner} is none of them")


# How a file is read. Each of these takes a value and its place, and raises `Wrong` where it isn't of the form.

Reader = Callable[[Any, str], Any]


def below(place: str, name: str) -> str:
    """The place of a member."""
    return f"{place}.{name}" if place else name


def object_at(value: Any, place: str) -> Members:
    """An object, each name of which stands once."""
    if not isinstance(value, Members):
        raise Wrong(place or "the file", "an object is due")
    if value.twice is not None:
        raise Wrong(below(place, value.twice), "this stands twice")
    return value


def known(value: Any, place: str, due: Sequence[str], more: Sequence[str] = ()) -> Members:
    """An object of these members, of which `more` may be absent, and of no others."""
    found = object_at(value, place)
    for name in found:
        if name not in due and name not in more:
            raise Wrong(below(place, name), "no such member is known")
    for name in due:
        if name not in found:
            raise Wrong(below(place, name), "this is missing")
    return found


def number_at(value: Any, place: str, end: int) -> int:
    """A whole number below the end."""
    if type(value) is not int or not 0 <= value < end:
        raise Wrong(place, f"a whole number below {end} is due")
    return value


def text_at(value: Any, place: str) -> str:
    """A name."""
    if not isinstance(value, str) or not 0 < len(value) <= MOST_LETTERS:
        raise Wrong(place, f"a text of 1 to {MOST_LETTERS} letters is due")
    return value


def table_at(value: Any, place: str, end: int) -> Dict[str, int]:
    """A table of names, each with a number of its own below the end."""
    table: Dict[str, int] = {}
    names: Dict[int, str] = {}
    for name, number in object_at(value, place).items():
        inner = below(place, text_at(name, place))
        table[name] = number_at(number, inner, end)
        if number in names:
            raise Wrong(inner, f"{number} is {names[number]} already")
        names[number] = name
    return table


def ids_at(value: Any, place: str) -> Ids:
    """A table of names, or a range of numbers that are ids themselves."""
    if isinstance(value, list):
        if len(value) != 2:
            raise Wrong(place, "a range is two numbers, its first and its last")
        first, last = (number_at(item, f"{place}[{at}]", NUMBERS) for at, item in enumerate(value))
        if first > last:
            raise Wrong(place, f"{first} is beyond {last}")
        return Ids(None, first, last)
    if not isinstance(value, Members):
        raise Wrong(place, "a table of names or a range of two numbers is due")
    return Ids(table_at(value, place, NUMBERS))


def subjects_at(value: Any, place: str) -> Dict[str, Ids]:
    """The types of subjects: no number is two subjects'."""
    found = {text_at(name, place): ids_at(ids, below(place, name)) for name, ids in object_at(value, place).items()}
    ranges = sorted((first, last, below(below(place, kind), name) if name else below(place, kind))
                    for kind, ids in found.items() for first, last, name in ids.ranges())
    for (_, end, before), (first, _, here) in zip(ranges, ranges[1:]):
        if first <= end:
            raise Wrong(here, f"{first} is a subject of {before} already")
    return found


def kind_at(value: Any, place: str) -> Kind:
    """A type of thing."""
    found = known(value, place, ("owner", "ids", "actions"), ("all",))
    ids, inner = ids_at(found["ids"], below(place, "ids")), below(place, "actions")
    actions = {text_at(name, inner): number_at(number, below(inner, name), ACTIONS + 1)
               for name, number in object_at(found["actions"], inner).items()}
    for name, number in actions.items():
        if number == ACTIONS:
            raise Wrong(below(inner, name), f"{ACTIONS} is kept: no action has it")
    all_ = None
    if "all" in found:
        all_ = number_at(found["all"], below(place, "all"), NUMBERS)
        if ids.has(all_):
            raise Wrong(below(place, "all"), f"{all_} is among the ids")
    return Kind(number_at(found["owner"], below(place, "owner"), OWNERS), ids, all_, actions)


def kinds_at(value: Any, place: str) -> Dict[str, Kind]:
    """The types of things: at one owner no number is two actions'."""
    found = {text_at(name, place): kind_at(kind, below(place, name)) for name, kind in object_at(value, place).items()}
    taken: Dict[Tuple[int, int], str] = {}
    for name, kind in found.items():
        for action, number in kind.actions.items():
            here = f"{place}.{name}.actions.{action}"
            before = taken.setdefault((kind.owner, number), here)
            if before != here:
                raise Wrong(here, f"{number} is {before} already, at owner {kind.owner} too")
    return found


def callers_at(value: Any, place: str) -> Dict[str, str]:
    """Whose each digest of a token is. A caller has one or two, so that one can be changed."""
    found: Dict[str, str] = {}
    for name, digests in object_at(value, place).items():
        here = below(place, text_at(name, place))
        if not isinstance(digests, list) or not 0 < len(digests) <= 2:
            raise Wrong(here, "a list of one or two digests of tokens is due")
        for at, digest in enumerate(digests):
            if not isinstance(digest, str) or DIGEST.fullmatch(digest) is None:
                raise Wrong(f"{here}[{at}]", "SHA-256 of a token is due, as 64 hexadecimal digits in small letters")
            if digest in found:
                raise Wrong(f"{here}[{at}]", f"this is a token of {found[digest]} already")
            found[digest] = name
    return found


def route_at(value: Any, place: str, kinds: Dict[str, Kind]) -> Route:
    """A route: method, path, action, type."""
    if not isinstance(value, list) or len(value) != 4 or not all(isinstance(item, str) for item in value):
        raise Wrong(place, "four texts are due: method, path, action, type")
    method, path, action, name = value
    if TOKEN.fullmatch(method) is None or method != method.upper():
        raise Wrong(f"{place}[0]", f"{method} is no method in capital letters")
    segments = tuple(path.split("/"))
    is_path = segments[0] == "" and len(segments) > 1 and segments.count(ID) <= 1
    for at, one in enumerate(segments[1:], 1):
        is_last = at == len(segments) - 1
        is_path = is_path and (one == ID or (one == "" and is_last) or
                               SEGMENT.fullmatch(one) is not None and one not in (".", ".."))
    if not is_path:
        raise Wrong(f"{place}[1]", f"{path} is no path, of plain segments and at most one that is {ID}")
    if name not in kinds:
        raise Wrong(f"{place}[3]", f"no type {name} is known")
    if action not in kinds[name].actions:
        raise Wrong(f"{place}[2]", f"{name} has no action {action}")
    if ID not in segments and kinds[name].all is None:
        raise Wrong(f"{place}[1]", f"without {ID} it is about all of {name}, which has no `all`")
    return Route(method, segments, action, name)


def forward_at(value: Any, place: str, subjects: Dict[str, Ids], kinds: Dict[str, Kind]) -> Forward:
    """What a proxy's requests ask."""
    found = known(value, place, ("subject", "header", "routes"))
    subject, header = text_at(found["subject"], below(place, "subject")), found["header"]
    if subject not in subjects:
        raise Wrong(below(place, "subject"), f"no type {subject} of subjects is known")
    if not isinstance(header, str) or TOKEN.fullmatch(header) is None or header.lower() in FIELDS_OF_HTTP:
        raise Wrong(below(place, "header"), "the name of a header of your own is due")
    if not isinstance(found["routes"], list):
        raise Wrong(below(place, "routes"), "a list is due")
    routes: Dict[Tuple[str, Tuple[str, ...]], str] = {}
    made: List[Route] = []
    for at, one in enumerate(found["routes"]):
        here = f"{below(place, 'routes')}[{at}]"
        made.append(route_at(one, here, kinds))
        before = routes.setdefault((made[-1].method, made[-1].segments), here)
        if before != here:
            raise Wrong(here, f"{before} is for these requests already")
    return Forward(subject, header, tuple(made))


def fingerprint_of(value: Dict[str, Any]) -> str:
    """The first 8 bytes of a digest of all but the callers: of two policies that say the same it is the same."""
    plain = {name: item for name, item in value.items() if name != "callers"}
    text = json.dumps(plain, sort_keys=True, separators=(",", ":"))
    return hashlib.sha256(b"tundelca policy" + text.encode("ascii")).hexdigest()[:16]


def policy_of(text: str, nodes: Optional[int] = None) -> Policy:
    """The policy of a file's text, before a cluster of so many nodes if that is known."""
    try:
        value = json.loads(text, object_pairs_hook=members_of)
    except (ValueError, RecursionError) as fault:
        raise Wrong("", f"no JSON: {fault}") from None
    found = known(value, "", ("subjects", "types", "callers"), ("roles", "forward"))
    subjects, kinds = subjects_at(found["subjects"], "subjects"), kinds_at(found["types"], "types")
    roles = {number: name for name, number in table_at(found.get("roles", Members()), "roles", ROLES).items()}
    forward = forward_at(found["forward"], "forward", subjects, kinds) if "forward" in found else None
    made = Policy(subjects, kinds, roles, callers_at(found["callers"], "callers"), forward, fingerprint_of(found))
    if nodes is not None:
        made.fit(nodes)
    return made


def read(path: str, nodes: Optional[int] = None) -> Policy:
    """The policy of a file that nobody but its owner may write. Raises `Wrong`, also where it can't be read."""
    try:
        with open(path, "rb") as file:
            mode = os.fstat(file.fileno()).st_mode
            if not stat.S_ISREG(mode):
                raise Wrong("", f"{path} is no file")
            if mode & 0o022:
                raise Wrong("", f"others may write {path}, its mode is {stat.S_IMODE(mode):o}: chmod go-w")
            data = file.read(MOST_BYTES + 1)
    except OSError as fault:
        raise Wrong("", f"{path}: {fault.strerror}") from None
    if len(data) > MOST_BYTES:
        raise Wrong("", f"{path} has over {MOST_BYTES} bytes")
    try:
        return policy_of(data.decode("utf-8"), nodes)
    except UnicodeDecodeError:
        raise Wrong("", "no UTF-8") from None
