"""The gateway before a node that is away, out of touch, slow or wrong: nothing of that is a yes. For deciding."""
import json
import os
import signal
import threading
import time
from typing import Any, Callable, Dict, List

import calls_tried
import gateways
from gateways import EVALUATION, Before, Gateway, evaluation
from runner import Case, judge, wait_until

SLOW = 0.5  # seconds in which the node answers, as with a slow sync
CALLERS = 40
JOURNAL = {"last": 1, "mean": 1, "sound": True, "syncs": 1, "worst": 1}


def peer(heard: bool = True, connected: bool = True) -> Dict[str, Any]:
    """What a node tells of a peer."""
    return {"again": 0, "connected": connected, "heard": heard, "lost": 0, "unopened": 0, "waiting": 0}


UNWELL: List[Any] = [  # what a node says of itself, and whether there are decisions
    ({"at": 8, "limit": 8}, False), ({"peers": [None, peer(), peer(heard=False), peer(heard=False)]}, False),
    ({"peers": [None, peer(), peer(heard=False), peer(connected=False)]}, False),
    ({"peers": [None, peer(), peer(), peer(heard=False, connected=False)]}, True),
    ({"journal": {**JOURNAL, "sound": False}}, False), ({"peers": None}, False),
    ({"published": 4, "reaches": [5, 0, 0, 0]}, False), ({"published": 5, "reaches": [5, 9, 0, 0]}, True),
    ({"begun_twice": True}, False), ({"begun_twice": False}, True), ({"journal": {**JOURNAL, "sound": 1}}, False),
    ({"limit": 0}, False), ({"f": 9}, False), ({"f": None}, False),
    ({"journal": {**JOURNAL, "more": 1}, "more": 1}, True),
    ({"peers": [None, peer()], "reaches": [5, 2], "f": 0}, True),
    ({"peers": [None], "reaches": [5], "f": 0}, False)]  # the policy speaks of owner 1, who is no node then


def standings(_: Any) -> str:
    """What the node says of itself has the gateway decide, or answer 503."""
    with Before() as one:
        for changed, is_well in UNWELL:
            one.stands(changed, is_well)
            judge(one.gateway.decides() is (True if is_well else None), f"{changed}: {one.gateway.log()}")
            judge(one.gateway.decides(subject="bob") is (False if is_well else None), f"{changed}: bob")
            judge(one.gateway.metric("ready") == is_well, f"{changed}: its metric")
            if not is_well:
                one.stands({}, True)
        one.stands({"acts": 1_000_000}, True)  # it goes on, and says so
        wait_until(lambda: "acts are left" in str(one.gateway.ask("GET", "/health/ready")[1]["soon"]), "it warns", 5)
        judge(one.gateway.decides() is True and one.gateway.metric("warnings") == 1, "it warns, and decides")
        judge(one.gateway.log().count("acts are left") == 1, one.gateway.log())
        status, answer = one.gateway.ask("GET", "/health/live", token=None)
        judge(status == 200 and answer["live"] is True, "it lives")
        told = one.gateway.log()
        judge(told.count("no decisions") >= 10 and told.count(": decides") >= 10, told)
    return f"{len(UNWELL)} standings"


def decisions(*made: Dict[str, Any]) -> bytes:
    """An answer of these decisions."""
    return json.dumps({"at": 9, "decisions": list(made)}).encode() + b"\n"


ALLOWED, DENIED = {"allow": True, "reach": 5, "role": 2}, {"allow": False, "reach": 5, "rule": "N4"}
LIES = [b"", b"\n", b"{}\n", b"nope\n", b'{"error":"J4 UnknownOp"}\n', b'{"error":"F9 Odd"}\n', b'{"error":7}\n',
        decisions(ALLOWED), decisions(ALLOWED, ALLOWED, ALLOWED), decisions(),
        decisions({**ALLOWED, "allow": 1}, DENIED),
        decisions({**ALLOWED, "more": 1}, DENIED), decisions({"allow": True, "reach": 5}, DENIED),
        decisions({**DENIED, "role": 2}, DENIED), decisions({**DENIED, "rule": "N2"}, DENIED),
        decisions({**ALLOWED, "reach": -1}, DENIED), decisions({**ALLOWED, "reach": 1 << 40}, DENIED),
        decisions(ALLOWED, DENIED)[:-1] + b" x\n", decisions(ALLOWED, DENIED)[:-5] + b"\n",
        b'{"at":9,"decisions":' + b"[" * 9_000 + b"\n", b" " * 9_000, b"\xff" * 100 + b"\n",
        decisions(ALLOWED, DENIED) * 2 + b"", b'{"allow":true,"at":9,"reach":5,"role":2}\n']


def lies(_: Any) -> str:
    """A node that answers what no node says gets nobody a yes, and is asked again on another connection."""
    with Before() as one:
        honest = one.node.lies["decide_all"]
        for lie in LIES:
            one.node.lies["decide_all"] = lie
            status, answer = one.gateway.ask("POST", EVALUATION, evaluation())
            is_twice = lie == LIES[-2]  # a first answer that is due, and another that nobody asked
            judge(status == (200 if is_twice else 503), f"{lie[:99]!r}: {status} {answer}")
            one.node.lies["decide_all"] = honest
            wait_until(lambda: one.gateway.decides() is True, f"it decides after {lie[:99]!r}: {one.gateway.log()}", 5)
            judge(one.gateway.decides(subject="bob") is False, f"{lie[:99]!r}: bob")
    return f"{len(LIES)} answers"


def each_their_own(_: Any) -> str:
    """Many callers at once each get the answer to their own question, also where connections break in between."""
    with Before() as one:
        wrong: List[str] = []
        none = [0]

        def call(me: int) -> None:
            for turn in range(25):
                who = "alice" if (me + turn) % 3 else "bob"
                decision = one.gateway.decides(subject=who)
                none[0] += decision is None
                if decision is not None and decision is not (who == "alice"):
                    wrong.append(f"{who}: {decision}")

        def breaks() -> None:
            for _turn in range(5):
                time.sleep(0.3)
                for connection in one.node.connections:
                    try:
                        connection.shutdown(2)
                    except OSError:
                        pass

        together(call, [breaks])
        judge(not wrong, f"another's answer: {wrong[:3]}")
        rounds, rows = one.gateway.metric("node_rounds_total"), one.gateway.metric("node_rows_total")
        judge(rounds < rows, f"{rounds} rounds for {rows} rows")
    return f"{CALLERS * 25} answers, of which {none[0]} are 503; {rows:.0f} rows in {rounds:.0f} rounds"


def together(call: Callable[[int], None], others: List[Callable[[], None]]) -> None:
    """Has all callers call, and others do something beside them."""
    threads = [threading.Thread(target=call, args=(me,)) for me in range(CALLERS)]
    threads += [threading.Thread(target=other) for other in others]
    for thread in threads:
        thread.start()
    for thread in threads:
        thread.join()


def slow(_: Any) -> str:
    """Where the node is slow all that waits is asked together; where it is too slow, there is no decision."""
    with Before() as one:
        honest = one.node.lies["decide_all"]
        lines: List[int] = []

        def slowly(asked: Dict[str, Any]) -> Any:
            lines.append(len(asked["asked"]))
            time.sleep(SLOW)
            return honest(asked)

        one.node.lies["decide_all"] = slowly
        came: List[Any] = []
        begun = time.monotonic()
        together(lambda _: came.append(one.gateway.decides()), [])
        took = time.monotonic() - begun
        judge(came == [True] * CALLERS, f"{came}")
        judge(len(lines) <= 4 and took < 4 * SLOW + 1, f"{CALLERS} questions in {took:.1f} s, as {lines} rows")
        one.node.lies["decide_all"] = lambda _: time.sleep(4) or b""
        begun = time.monotonic()
        judge(one.gateway.decides() is None, "a late answer")
        late = time.monotonic() - begun
        judge(1.5 < late < 3.5, f"503 after {late:.1f} s")
        one.node.lies["decide_all"] = honest
        wait_until(lambda: one.gateway.decides() is True, "it decides again", 10)
        one.node.mute = True
        wait_until(lambda: one.gateway.ask("GET", "/health/ready")[0] == 503, "a mute node", 5)
        begun = time.monotonic()
        judge(one.gateway.decides() is None and time.monotonic() - begun < 1, "a mute node is waited for")
        one.node.mute = False
        wait_until(lambda: one.gateway.decides() is True, "it decides again", 10)
    return f"{CALLERS} questions in {len(lines)} lines, {took:.1f} s; a late one ends after {late:.1f} s"


def kept(_: Any) -> str:
    """The node ends the gateway's connections, as one does where too many clients come: no caller has no decision, and
    what is asked goes out twice at most."""
    with Before() as one:
        heard: List[Dict[str, Any]] = []
        honest = one.node.lies["decide_all"]

        def cutting(asked: Dict[str, Any]) -> bytes:
            heard.append(asked)
            if len(heard) % 2:
                return honest(asked)
            one.node.hang_up()
            return b""

        for _ in range(20):
            judge(one.gateway.decides() is True, "a decision")
            one.node.hang_up()  # while nothing is asked
        one.node.lies["decide_all"] = cutting
        judge([one.gateway.decides() for _ in range(20)] == [True] * 20, f"under way: {one.gateway.log()}")
        judge(len(heard) == 39, f"20 questions went out as {len(heard)}")
        judge(one.gateway.log().count("no decisions") <= 1, one.gateway.log())  # before its first look
        one.node.lies["decide_all"] = lambda asked: heard.append(asked) or one.node.hang_up() or b""
        judge(one.gateway.decides() is None, "a decision that nobody made")
        judge(len(heard) <= 41, f"the last question went out as {len(heard) - 39}")
        one.node.lies["decide_all"] = honest
        wait_until(lambda: one.gateway.decides() is True, "it decides again", 10)
    return "40 connections that ended, 40 decisions"


def away(_: Any) -> str:
    """A gateway starts before its node, and goes on after it."""
    cluster = Before()
    port = cluster.node.port
    with cluster as one:
        one.cluster.end()
        wait_until(lambda: one.gateway.ask("GET", "/health/ready")[0] == 503, "the node is away", 5)
        judge(one.gateway.decides() is None, "a decision without a node")
        judge(one.gateway.decides(subject="dave") is False, "a name that nobody has")
        with Gateway(port) as early:
            early.wait("/health/live")
            judge(early.decides() is None and early.ask("GET", "/health/ready")[0] == 503, "before its node")
    return "without a node 503"


def changed(_: Any) -> str:
    """A policy file that is changed is read anew; while it is wrong that of before goes on, and it is told."""
    with Before() as one:
        gateway = one.gateway
        renamed = json.loads(json.dumps(gateways.POLICY))
        renamed["subjects"]["user"] = {"alice": 8, "bob": 7}
        gateway.write(renamed)
        wait_until(lambda: gateway.decides(subject="bob") is True and gateway.decides() is False, "the new names", 5)
        for wrong in ("{", json.dumps({**renamed, "more": 1}), json.dumps({**renamed, "types": {
                "record": {**renamed["types"]["record"], "owner": 4}}})):
            gateway.write(wrong)
            wait_until(lambda: gateway.metric("policy_wrong") == 1, "it tells of a wrong file", 5)
            judge(gateway.decides(subject="bob") is True, "that of before goes on")
            gateway.write(renamed)
            wait_until(lambda: gateway.metric("policy_wrong") == 0, "a file mended", 5)
        os.unlink(gateway.path)
        wait_until(lambda: gateway.metric("policy_wrong") == 1, "no file", 5)
        gateway.write(renamed)
        os.chmod(gateway.path, 0o666)
        time.sleep(1.5)
        judge(gateway.metric("policy_wrong") == 1, "a file that others may write")
        gateway.write(gateways.POLICY)
        wait_until(lambda: gateway.decides() is True, "the old names", 5)
        judge(gateway.log().count("is refused") == 5, gateway.log())
        with Gateway(one.node.port, {**gateways.POLICY, "more": 1}) as wrong_one:
            judge(wrong_one.process.wait(20) == 3 and ": more: " in wrong_one.log(), wrong_one.log())
    return "five wrong files"


def ended(_: Any) -> str:
    """SIGTERM: what is under way is answered, what is idle ends, and the status is 0."""
    with Before() as one:
        honest = one.node.lies["decide_all"]
        one.node.lies["decide_all"] = lambda asked: time.sleep(1.0) or honest(asked)
        idle = one.gateway.connect()
        came: List[Any] = []
        callers = [threading.Thread(target=lambda: came.append(one.gateway.decides())) for _turn in range(5)]
        for caller in callers:
            caller.start()
        time.sleep(0.4)
        begun = time.monotonic()
        judge(one.gateway.stop() == 0, "its status")
        took = time.monotonic() - begun
        for caller in callers:
            caller.join()
        judge(came == [True] * 5, f"what was under way: {came}")
        judge(idle.recv(1) == b"", "an idle connection")
        judge(took < 3, f"it ended after {took:.1f} s")
        idle.close()
    with Before() as one:
        half = one.gateway.connect()
        half.sendall(b"GET /health/live HT")
        time.sleep(0.3)
        begun = time.monotonic()
        judge(one.gateway.stop(signal.SIGINT) == 0, "its status")
        half_took = time.monotonic() - begun
        judge(4 < half_took < 7, f"half a request held it for {half_took:.1f} s")
        half.close()
    return f"five under way answered within {took:.1f} s; half a request ends it after {half_took:.1f} s"


def cases(given: Any) -> List[Case]:
    return [*(Case(name, lambda part=part: calls_tried.skipping(part, given)) for name, part in [  # type: ignore[misc]
        ("a node unwell", standings), ("a node that answers wrongly", lies), ("each their own", each_their_own),
        ("a slow node", slow), ("a node away", away), ("connections that end", kept),
        ("a policy that changes", changed), ("SIGTERM", ended)])]
