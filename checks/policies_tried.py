"""Policy files that are refused, each with the place that is named. For deciding."""
import copy
import hashlib
import json
import os
import re
import stat
import tempfile
from typing import Any, Callable, Dict, List, Optional, Tuple

from paths import TOP
from gateways import POLICY, evaluation
from gateway import policy, questions
from runner import Case, judge

Change = Callable[[Dict[str, Any]], Any]
DIGEST = "0" * 64


def put(*path_and_value: Any) -> Change:
    """A change of one member."""
    *path, last, value = path_and_value

    def change(whole: Dict[str, Any]) -> None:
        inner: Any = whole
        for name in path:
            inner = inner[name]
        inner[last] = value

    return change


def without(*path: Any) -> Change:
    """One member less."""

    def change(whole: Dict[str, Any]) -> None:
        inner: Any = whole
        for name in path[:-1]:
            inner = inner[name]
        del inner[path[-1]]

    return change


RECORD, ROUTE = ("types", "record"), ["GET", "/x/{id}", "read", "record"]
WRONG: List[Tuple[Change, str]] = [  # each change, and the place that is named
    (put("more", 1), "more"), (put("types", "record", "each", 0), "types.record.each"),
    (put("forward", "more", 1), "forward.more"),
    *((without(name), name) for name in ("subjects", "types", "callers")),
    *((without(*RECORD, name), f"types.record.{name}") for name in ("owner", "ids", "actions")),
    *((without("forward", name), f"forward.{name}") for name in ("subject", "header", "routes")),
    (put("subjects", []), "subjects"), (put("types", 7), "types"), (put("subjects", "user", 7), "subjects.user"),
    (put("subjects", "user", {"alice": "7"}), "subjects.user.alice"),
    (put("subjects", "user", "bob", 7), "subjects.user.bob"),
    (put("subjects", "user", "bob", 150), "subjects.user.bob"),
    (put("subjects", "staff", [199, 300]), "subjects.staff"),
    (put("subjects", "user", "bob", 1 << 32), "subjects.user.bob"),
    (put("subjects", "user", "bob", -1), "subjects.user.bob"),
    (put("subjects", "user", "bob", True), "subjects.user.bob"),
    (put("subjects", "user", "bob", 8.0), "subjects.user.bob"),
    (put("subjects", "user", "", 70), "subjects.user"),
    (put("subjects", "employee", [199, 100]), "subjects.employee"),
    (put("subjects", "employee", [1]), "subjects.employee"),
    (put("subjects", "employee", [1, 1 << 32]), "subjects.employee[1]"),
    (put(*RECORD, "owner", 128), "types.record.owner"), (put(*RECORD, "owner", "0"), "types.record.owner"),
    (put(*RECORD, "all", 9), "types.record.all"), (put("types", "page", "all", 2), "types.page.all"),
    (put(*RECORD, "all", None), "types.record.all"),
    (put(*RECORD, "actions", "write", 5), "types.record.actions.write"),
    (put(*RECORD, "actions", "write", 65_535), "types.record.actions.write"),
    (put(*RECORD, "actions", "write", 65_536), "types.record.actions.write"),
    (put("types", "page", "owner", 0), "types.page.actions.read"),
    (put("types", "page", "ids", {"home": 1, "news": 1}), "types.page.ids.news"),
    (put("roles", "writer", 2), "roles.writer"), (put("roles", "writer", 65_408), "roles.writer"),
    (put("callers", "shop", []), "callers.shop"), (put("callers", "shop", [DIGEST] * 3), "callers.shop"),
    (put("callers", "shop", [DIGEST, DIGEST]), "callers.shop[1]"), (put("callers", "x", ["A" * 64]), "callers.x[0]"),
    (put("callers", "x", [POLICY["callers"]["shop"][0]]), "callers.x[0]"), (put("callers", "x", "secret"), "callers.x"),
    (put("forward", "subject", "nobody"), "forward.subject"), (put("forward", "header", "Host"), "forward.header"),
    (put("forward", "header", "X User"), "forward.header"), (put("forward", "routes", {}), "forward.routes"),
    *((put("forward", "routes", [route]), f"forward.routes[0]{place}") for route, place in [
        (["GET"], ""), (["GET", 1, "read", "record"], ""), (["get", *ROUTE[1:]], "[0]"),
        (["GET", "x", *ROUTE[2:]], "[1]"),
        (["GET", "/x/../{id}", *ROUTE[2:]], "[1]"), (["GET", "/x//{id}", *ROUTE[2:]], "[1]"),
        (["GET", "/{id}/{id}", *ROUTE[2:]], "[1]"), (["GET", "/x%20/{id}", *ROUTE[2:]], "[1]"),
        (["GET", "/x{id}", *ROUTE[2:]], "[1]"), (["GET", "/x/{id}?a", *ROUTE[2:]], "[1]"),
        ([*ROUTE[:2], "fly", "record"], "[2]"), ([*ROUTE[:3], "castle"], "[3]"),
        (["GET", "/x", "read", "page"], "[1]")]),
    (put("forward", "routes", [ROUTE, ROUTE]), "forward.routes[1]"),
]
TWICE = [  # texts in place of texts of the file, and the place
    ('"alice": 7', '"alice": 7, "alice": 7', "subjects.user.alice"),
    ('"subjects"', '"roles": {}, "subjects"', "roles"), ('"owner": 0', '"owner": 0, "owner": 0', "types.record.owner"),
    ('"GET"', '"GET"]', ""), ("{", "[", "")]


def refused(text: str, nodes: Optional[int] = None) -> str:
    """The place at which a policy is refused."""
    try:
        policy.policy_of(text, nodes)
    except policy.Wrong as wrong:
        return wrong.place
    judge(False, f"this policy is taken: {text}")
    return ""


def wrong_files(_: Any) -> str:
    """Each policy that is wrong is refused, with the place."""
    whole = json.dumps(POLICY)
    policy.policy_of(whole, 4)
    for change, place in WRONG:
        changed = copy.deepcopy(POLICY)
        change(changed)
        came = refused(json.dumps(changed))
        judge(came == place, f"due {place}, came {came}: {changed}")
    for old, new, place in TWICE:
        judge(old in whole, old)
        judge(refused(whole.replace(old, new, 1)) == place, f"{new}: due {place}")
    for text in ("", "7", "[]", "null", "[" * 100_000, '"\ud800"'):
        refused(text)
    judge(refused(whole, 1) == "types.page.owner", "an owner that is no node")
    return f"{len(WRONG) + len(TWICE) + 7} policies"


def files(_: Any) -> str:
    """A file that others may write, none, and one that is no text."""
    with tempfile.TemporaryDirectory(prefix="tundelca-") as folder:
        path = os.path.join(folder, "policy.json")
        with open(path, "w", encoding="ascii") as file:
            json.dump(POLICY, file)
        for mode, is_well in [(0o600, True), (0o644, True), (0o664, False), (0o646, False)]:
            os.chmod(path, mode)
            came = is_read(path)
            judge(came is is_well, f"mode {mode:o}: read {came}")
        os.chmod(path, 0o600)
        first = policy.read(path)
        with open(path, "w", encoding="ascii") as file:
            json.dump({name: POLICY[name] for name in reversed(list(POLICY))} | {"callers": {}}, file, indent=3)
        judge(policy.read(path).fingerprint == first.fingerprint, "its fingerprint goes by order or callers")
        with open(path, "wb") as file:
            file.write(b'{"subjects":{"\xff":1}}')
        judge(not is_read(path) and not is_read(folder) and not is_read(path + ".none"), "no text, folder, nothing")
        judge(stat.S_IMODE(os.stat(path).st_mode) == 0o600, "its mode has changed")
    return "modes, fingerprints"


def page(_: Any) -> str:
    """The policy of docs/DECIDING.md is one, and its question has the rows that stand there."""
    with open(os.path.join(TOP, "docs", "DECIDING.md"), encoding="utf-8") as file:
        found = re.search(r"```json\n(.*?)```", file.read(), re.DOTALL)
    judge(found is not None, "docs/DECIDING.md has no policy")
    read = policy.policy_of(found.group(1) if found is not None else "", 4)
    asked = questions.evaluation(json.dumps(evaluation()).encode(), read)
    judge(asked.groups() == [[[7, 0, 5, 9], [7, 0, 5, 0]]], str(asked.groups()))
    judge(read.callers == {hashlib.sha256(b"TOKEN").hexdigest(): "shop"}, "its token")
    return "its policy and its rows"


def is_read(path: str) -> bool:
    try:
        policy.read(path)
        return True
    except policy.Wrong:
        return False


def cases(_: Any) -> List[Case]:
    return [Case("policies that are wrong", lambda: wrong_files(None)), Case("policy files", lambda: files(None)),
            Case("DECIDING.md", lambda: page(None))]
