"""Many made requests to a gateway before built nodes, each held against a model. For deciding.

The model is written from docs/DECIDING.md and docs/ACCESS.md: the policy file's names to numbers, and decide.Model for
what an owner's stream says. It shares no line with the gateway.
"""
import json
import random
from typing import Any, Dict, List, Optional, Tuple

import decide
from cluster import Cluster
from gateways import EVALUATION, EVALUATIONS, FORWARD, POLICY, Gateway
from runner import judge

REQUESTS = 5_000
OWNERS, MAY_LIE, COMMANDS = 4, 1, 300
ROLES = [(role, (role * 5 + role // 7) % 3) for role in range(1, 40, 3)]  # the last node owns none
KINDS = {"record": ["read", "write"], "page": ["read", "print"], "note": ["read", "write", "erase"], "void": ["read"]}
ACTIONS = ["read", "write", "print", "fly", "erase"]
NAMES = [f"user{number}" for number in range(14)]
Answer = Tuple[bool, Optional[str]]  # a decision, and the role or the reason


def made_policy() -> Dict[str, Any]:
    """A policy that knows most of what is asked."""
    users = {name: at for at, name in enumerate(NAMES[:12])}
    types = {
        "record": {"owner": 0, "ids": [1, 5], "all": 0, "actions": {"read": 0, "write": 1}},
        "page": {"owner": 1, "ids": {"home": 1, "news": 2, "3": 4}, "actions": {"read": 0, "print": 2}},
        "note": {"owner": 2, "ids": [0, 4], "all": 5, "actions": {"read": 3, "write": 2, "erase": 1}},
        "void": {"owner": 3, "ids": [0, 9], "actions": {"read": 0}},
    }
    routes = [["GET", "/records/{id}", "read", "record"], ["PUT", "/records/{id}", "write", "record"],
              ["GET", "/records", "read", "record"], ["GET", "/pages/{id}", "read", "page"],
              ["DELETE", "/notes/{id}/all", "erase", "note"], ["GET", "/notes/3/all", "read", "note"]]
    roles = {f"role{role}": role for role, _ in ROLES[::2]}
    return {**POLICY, "subjects": {"user": users, "employee": [12, 20]}, "types": types, "roles": roles,
            "forward": {"subject": "user", "header": "X-User", "routes": routes}}


class Model:
    """What is due, by a policy and by each owner's stream."""

    def __init__(self, policy: Dict[str, Any], models: List[Any]) -> None:
        self.policy, self.models = policy, models
        self.names = {number: name for name, number in policy["roles"].items()}

    @staticmethod
    def number(ids: Any, name: str) -> Optional[int]:
        """The number of an id, by a table or a range."""
        if isinstance(ids, dict):
            return ids.get(name)
        return int(name) if name in map(str, range(ids[0], ids[1] + 1)) else None

    def due(self, who: str, subject: str, action: str, kind: str, thing: Optional[str]) -> Answer:
        """The decision on one access; `thing` is None where it is about all of the type."""
        ids = self.policy["subjects"].get(who)
        user = None if ids is None else self.number(ids, subject)
        if user is None:
            return False, "unknown subject"
        of_kind = self.policy["types"].get(kind)
        objects = [] if of_kind is None else [self.number(of_kind["ids"], thing)] if thing is not None else []
        if of_kind is None or None in objects:
            return False, "unknown resource"
        if action not in of_kind["actions"]:
            return False, "unknown action"
        objects += [of_kind["all"]] if "all" in of_kind else []
        rules = []
        for object_ in objects:
            allow, role, rule = self.models[of_kind["owner"]].decision(user, of_kind["actions"][action], object_)
            if allow:
                return True, self.names.get(role, str(role))
            rules.append(rule)
        return False, rules[0]

    def routed(self, method: str, path: str, subject: str) -> Answer:
        """The decision on a service's request."""
        parts = path.split("?")[0].split("/")
        for wanted, route, action, kind in sorted(self.policy["forward"]["routes"], key=lambda one: "{id}" in one[1]):
            due = route.split("/")
            if wanted == method and len(due) == len(parts) and all(a in (b, "{id}") for a, b in zip(due, parts)):
                thing = parts[due.index("{id}")] if "{id}" in due else None
                return self.due("user", subject, action, kind, thing)
        return False, "no route"


def made_access(draws: random.Random) -> Tuple[str, str, str, str, str]:
    """A subject's type and id, an action, a thing's type and id."""
    who = draws.choice(["user"] * 15 + ["employee"] * 3 + ["person"])
    subject = draws.choice(NAMES) if who == "user" else str(draws.randrange(10, 23))
    kind = draws.choice([*KINDS] * 5 + ["castle"])
    thing = draws.choice(["home", "news", "3"]) if kind == "page" and draws.random() < 0.8 else str(draws.randrange(7))
    return who, subject, draws.choice(KINDS.get(kind, ACTIONS) if draws.random() < 0.9 else ACTIONS), kind, thing


def body_of(access: Tuple[str, str, str, str, str]) -> Dict[str, Any]:
    who, subject, action, kind, thing = access
    return {"subject": {"type": who, "id": subject}, "action": {"name": action},
            "resource": {"type": kind, "id": thing}}


def held(answer: Dict[str, Any], due: Answer, what: Any) -> None:
    """Holds an answer against what is due."""
    context = answer["context"]
    said = context.get("role") if answer["decision"] else context["reason"]
    if due[1] is not None and due[1].startswith("N"):
        said = said.partition(" ")[0]
    judge((answer["decision"], said) == due, f"{what}: due {due}, came {answer}")


def one_evaluation(gateway: Gateway, model: Model, draws: random.Random) -> Answer:
    access = made_access(draws)
    status, answer = gateway.ask("POST", EVALUATION, body_of(access))
    judge(status == 200, f"{access}: {status} {answer}")
    due = model.due(*access)
    held(answer, due, access)
    return due


def many(gateway: Gateway, model: Model, draws: random.Random) -> Answer:
    """Evaluations with a default each for some members, of any semantic."""
    stops = {"execute_all": None, "deny_on_first_deny": False, "permit_on_first_permit": True}
    semantic, base = draws.choice(list(stops)), made_access(draws)
    body, dues = {**body_of(base), "options": {"evaluations_semantic": semantic}}, []
    items: List[Dict[str, Any]] = []
    for _ in range(draws.randrange(1, 8)):
        other = made_access(draws)
        names = [name for name in ("subject", "action", "resource") if draws.random() < 0.5]
        items.append({name: body_of(other)[name] for name in names})
        whole = [other[at] if name in names else base[at]
                 for at, name in enumerate(("subject", "subject", "action", "resource", "resource"))]
        dues.append(model.due(*whole))
    for at, due in enumerate(dues):
        if due[0] is stops[semantic]:
            dues = dues[:at + 1]
            break
    status, answer = gateway.ask("POST", EVALUATIONS, {**body, "evaluations": items})
    judge(status == 200 and len(answer["evaluations"]) == len(dues), f"{body} {items}: {dues} {status} {answer}")
    for came, due in zip(answer["evaluations"], dues):
        held(came, due, (body, items))
    return dues[0]


def one_forward(gateway: Gateway, model: Model, draws: random.Random) -> Answer:
    """A proxy's request, by headers or by path."""
    path = draws.choice(["/records/{}", "/records/{}", "/records", "/pages/{}", "/notes/{}/all", "/x/{}"]).format(
        draws.choice(["home", "news", "0", "1", "2", "3"])) + draws.choice(["", "?a=%2e/.."])
    method, subject = draws.choice(["GET", "GET", "PUT", "DELETE"]), draws.choice(NAMES)
    if draws.random() < 0.5:
        fields = {"X-User": subject, "X-Original-Method": method, "X-Original-URI": path}
        status, answer = gateway.ask("GET", FORWARD, None, fields=fields)
    else:
        status, answer = gateway.ask(method, FORWARD + path, None, fields={"X-User": subject})
    due = model.routed(method, path, subject)
    judge(status == (200 if due[0] else 403), f"{method} {path} {subject}: due {due}, came {status} {answer}")
    held(answer, due, (method, path, subject))
    return due


def beside(given: Any) -> str:
    """As many requests as were asked for, at nodes that stand still."""
    draws, seen = given.draws("requests"), {}  # type: random.Random, Dict[str, int]
    policy = made_policy()
    with Cluster(given.program("tundelca"), OWNERS, MAY_LIE, roles=ROLES, waits=True) as cluster:
        decide.publish(cluster, draws, COMMANDS)
        models = [decide.Model(decide.roles_of(ROLES, owner)) for owner in range(OWNERS)]
        with cluster.client(0) as node:
            for owner, model in enumerate(models):
                for command in node.stream(owner):
                    model.take(command)
        with Gateway(cluster.clients[0], policy) as gateway:
            gateway.wait()
            whole = Model(policy, models)
            for at in range(given.words.requests):
                call = (one_evaluation, many, one_forward)[at % 3]
                allowed, why = call(gateway, whole, draws)
                name = "allowed" if allowed else str(why)
                seen[name] = seen.get(name, 0) + 1
    judge({"allowed", "N3", "N4", "N5", "no route", "unknown subject", "unknown action",
           "unknown resource"} <= seen.keys(),
          json.dumps(seen))
    return f"{given.words.requests:,} requests, " + ", ".join(f"{count:,} {what}" for what,
                                                              count in sorted(seen.items()))
