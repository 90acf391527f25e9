"""Bodies of requests to questions for the node, and its decisions to answers. Nothing here has a socket.

A question has items, each of one access. An item is looked up in the policy, and then is either known to be a no, or
bad, or one or two rows that the node is asked in one line: the thing itself, and the object that stands for all of its
type. It is allowed where one of its rows is.
"""
import json
import re
from dataclasses import dataclass, field
from typing import Any, Dict, List, Optional, Sequence, Tuple

from gateway.policy import ID, Kind, Policy, Route
from tundelca import PLACES

Row = List[int]  # user, owner, operation, object
Decided = Sequence[Dict[str, Any]]  # the node's decisions on the rows of one item
MOST_ITEMS = 1_000
OWNER = re.compile("0|[1-9][0-9]{0,2}")
DENIALS = {"N3": "N3 NoActiveRole", "N4": "N4 NoneAssigned", "N5": "N5 NotPermitted"}
STOPS = {"execute_all": None, "deny_on_first_deny": False, "permit_on_first_permit": True}
BY_DEFAULT = ("subject", "action", "resource", "context")
LIES = re.compile(r"[%\\;#]|//|(?:^|/)\.\.?(?:/|$)")  # what servers read in different ways
PRINTABLE = re.compile("/[!-~]*")


class Bad(Exception):
    """A request that can't be answered: its status and why."""

    def __init__(self, status: int, why: str) -> None:
        self.status, self.why = status, why
        super().__init__(why)


class NoDecision(Exception):
    """There is no decision, and why: the answer is 503."""


@dataclass
class Item:
    """One access that is asked about: its rows, or the answer that it has without the node.

    `at_least` is how far the owner's stream has to reach, for this to be a decision.
    """

    rows: List[Row] = field(default_factory=list)
    at_least: int = 0
    answer: Optional[Dict[str, Any]] = None


@dataclass
class Question:
    """What a request asks. `stop` is the decision at which the list of answers ends; None where it doesn't."""

    policy: Policy
    items: List[Item]
    is_many: bool = False
    stop: Optional[bool] = None

    def groups(self) -> List[List[Row]]:
        """The rows for the node, those of one item together."""
        return [item.rows for item in self.items if item.answer is None]

    def answer(self, decided: Sequence[Decided]) -> Dict[str, Any]:
        """The answer, by the node's decisions on each group. Raises `NoDecision`."""
        left = iter(decided)
        answers = [item.answer or answer_of(item, next(left), self.policy) for item in self.items]
        if not self.is_many:
            return answers[0]
        if self.stop is not None:
            for at, one in enumerate(answers):
                if one["decision"] is self.stop:
                    answers = answers[:at + 1]
                    break
        return {"evaluations": answers}


def answer_of(item: Item, decided: Decided, policy: Policy) -> Dict[str, Any]:
    """The answer to an item by the decisions on its rows."""
    one = next((one for one in decided if one["allow"] is True), decided[0])
    owner = item.rows[0][1]
    if one["reach"] < item.at_least:
        raise NoDecision(f"behind: of owner {owner} it has {one['reach']} commands, and {item.at_least} are asked for")
    context: Dict[str, Any] = {"at": {str(owner): one["reach"]}, "policy": policy.fingerprint}
    if one["allow"] is True:
        context["role"] = policy.role(one["role"])
        return {"decision": True, "context": context}
    context["reason"] = DENIALS[one["rule"]]
    return {"decision": False, "context": context}


def denied(policy: Policy, reason: str) -> Item:
    """An item that the policy alone answers with a no."""
    return Item(answer={"decision": False, "context": {"policy": policy.fingerprint, "reason": reason}})


def object_in(body: Dict[str, Any], name: str) -> Dict[str, Any]:
    """A member that has to be an object."""
    value = body.get(name)
    if not isinstance(value, dict):
        raise Bad(400, f"{name}: an object is due")
    return value


def text_in(body: Dict[str, Any], name: str, inner: str) -> str:
    """A text in such a member."""
    value = object_in(body, name).get(inner)
    if not isinstance(value, str):
        raise Bad(400, f"{name}.{inner}: a text is due")
    return value


def at_least_in(body: Dict[str, Any]) -> Dict[int, int]:
    """How far which owner's stream has to reach."""
    if "context" not in body:
        return {}
    context = object_in(body, "context")
    if "at_least" not in context:
        return {}
    found: Dict[int, int] = {}
    for name, reach in object_in(context, "at_least").items():
        if OWNER.fullmatch(name) is None or type(reach) is not int or not 0 <= reach <= PLACES:
            raise Bad(400, "context.at_least: owners with their reaches are due")
        found[int(name)] = reach
    return found


def item_of(body: Dict[str, Any], policy: Policy) -> Item:
    """What one evaluation asks. Raises `Bad`."""
    subject = text_in(body, "subject", "type"), text_in(body, "subject", "id")
    action, resource = text_in(body, "action", "name"), text_in(body, "resource", "type")
    name, at_least = text_in(body, "resource", "id"), at_least_in(body)
    kind = policy.kinds.get(resource)
    if kind is None:
        return unless_subject(policy, subject) or denied(policy, "unknown resource")
    number = kind.ids.number(name)
    if number is None:
        return unless_subject(policy, subject) or denied(policy, "unknown resource")
    objects = [number] if kind.all is None else [number, kind.all]
    return looked_up(policy, subject, kind, action, objects, at_least)


def number_of(policy: Policy, subject: Tuple[str, str]) -> Optional[int]:
    """A subject's number, by its type and its id."""
    ids = policy.subjects.get(subject[0])
    return None if ids is None else ids.number(subject[1])


def unless_subject(policy: Policy, subject: Tuple[str, str]) -> Optional[Item]:
    """The no to an unknown subject; None to one that is known."""
    return denied(policy, "unknown subject") if number_of(policy, subject) is None else None


def looked_up(policy: Policy, subject: Tuple[str, str], kind: Kind, action: str, objects: List[int],
              at_least: Dict[int, int]) -> Item:
    """An access to these objects of a type, as numbers."""
    user = number_of(policy, subject)
    if user is None:
        return denied(policy, "unknown subject")
    operation = kind.actions.get(action)
    if operation is None:
        return denied(policy, "unknown action")
    return Item([[user, kind.owner, operation, one] for one in objects], at_least.get(kind.owner, 0))


def once(pairs: List[Tuple[str, Any]]) -> Dict[str, Any]:
    """The object of these members. Raises `Bad` where a name stands twice."""
    made = dict(pairs)
    if len(made) < len(pairs):
        names = [name for name, _ in pairs]
        raise Bad(400, f"{next(name for name in names if names.count(name) > 1)[:80]} stands twice")
    return made


READER = json.JSONDecoder(object_pairs_hook=once)


def body_of(data: bytes) -> Dict[str, Any]:
    """The object in a body. Raises `Bad`."""
    try:
        value = READER.decode(data.decode("utf-8"))
    except (ValueError, RecursionError):
        raise Bad(400, "no JSON") from None
    if not isinstance(value, dict):
        raise Bad(400, "an object is due")
    return value


def evaluation(data: bytes, policy: Policy) -> Question:
    """The question of a body of one evaluation. Raises `Bad`."""
    return Question(policy, [item_of(body_of(data), policy)])


def evaluations(data: bytes, policy: Policy) -> Question:
    """The question of a body of many. Without a list it is one evaluation. Raises `Bad`."""
    body = body_of(data)
    given = body.get("evaluations", [])
    if not isinstance(given, list):
        raise Bad(400, "evaluations: a list is due")
    if len(given) > MOST_ITEMS:
        raise Bad(400, f"evaluations: at most {MOST_ITEMS} are due")
    if not given:
        return Question(policy, [item_of(body, policy)])
    return Question(policy, [item_in(body, one, policy) for one in given], True, stop_in(body))


def stop_in(body: Dict[str, Any]) -> Optional[bool]:
    """At which decision the answers end."""
    options = object_in(body, "options") if "options" in body else {}
    word = options.get("evaluations_semantic", "execute_all")
    if not isinstance(word, str) or word not in STOPS:
        raise Bad(400, "options.evaluations_semantic: " + ", ".join(STOPS) + " are known")
    return STOPS[word]


def item_in(body: Dict[str, Any], given: Any, policy: Policy) -> Item:
    """One item of a list: what it doesn't say the body says, member by member. A bad one counts as a no."""
    try:
        if not isinstance(given, dict):
            raise Bad(400, "an object is due")
        whole = {name: given[name] if name in given else body[name]
                 for name in BY_DEFAULT if name in given or name in body}
        return item_of(whole, policy)
    except Bad as bad:
        error = {"status": bad.status, "message": bad.why}
        return Item(answer={"decision": False, "context": {"error": error, "policy": policy.fingerprint}})


def segments_of(target: str) -> Optional[List[str]]:
    """A path's segments, without its query; None where it could be another path to another server."""
    path = target.partition("?")[0]
    if PRINTABLE.fullmatch(path) is None or LIES.search(path) is not None:
        return None
    return path.split("/")


def routed(policy: Policy, method: str, target: str) -> Optional[Tuple[Route, str]]:
    """The route of a service's request, and the id in it; None where there is none. A route without an id goes first.
    """
    segments = segments_of(target)
    if segments is None or policy.forward is None:
        return None
    found = [(route, name) for route in policy.forward.routes if route.method == method
             for name in [route.id_in(segments)] if name is not None]
    return min(found, key=lambda one: one[0].segments.count(ID)) if found else None


def forwarded(policy: Policy, method: str, target: str, subject: str) -> Question:
    """The question that a service's request is. What has no route, or has one to an unknown thing, is a no."""
    found = routed(policy, method, target)
    if found is None or policy.forward is None:
        return Question(policy, [denied(policy, "no route")])
    route, name = found
    kind, who = policy.kinds[route.kind], (policy.forward.subject, subject)
    if not route.is_of_one():
        objects = [] if kind.all is None else [kind.all]
    else:
        number = kind.ids.number(name)
        if number is None:
            return Question(policy, [unless_subject(policy, who) or denied(policy, "unknown resource")])
        objects = [number] if kind.all is None else [number, kind.all]
    return Question(policy, [looked_up(policy, who, kind, route.action, objects, {})])
