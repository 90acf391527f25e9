"""The client of tools/tundelca.py: threads that share one, what ends a question, and an owner that was begun twice.

On nodes that a script plays (played.py), for checks/tools_tried.py; `begun_twice` on the built program too.
"""
import contextlib
import signal
import threading
import time

from cluster import tundelca
from runner import Failed, judge
from tool_runs import PATIENCE, playing

EACH = 1_500  # questions of a thread
THREADS = 4  # that share a client
SOON = 3.0  # seconds in which one that waits is told


def is_allowed(user):
    return user % 2 == 0


@contextlib.contextmanager
def deciding():
    """The client port of a played node that allows all accesses of even users, and the node."""
    with playing() as (cluster, ports):
        node = cluster.nodes[0]
        node.on_check = lambda asked: {"allow": True, "at": 1, "role": 2} if is_allowed(asked["user"]) else {
            "allow": False, "at": 1, "rule": "N5"}
        yield node, ports[0]


def ask_many(client, user, answers):
    """Asks for accesses of the user until it has enough answers, or a fault."""
    try:
        for _ in range(EACH):
            answers.append(client.check(1, user, 5, 9).allow)
    except (tundelca.NodeFault, RuntimeError, ValueError, OSError) as fault:
        answers.append(fault)


def together(*calls):
    """Does the calls side by side, and waits for all."""
    threads = [threading.Thread(target=call) for call in calls]
    for thread in threads:
        thread.start()
    for thread in threads:
        thread.join(PATIENCE)
        judge(not thread.is_alive(), "a thread waits for ever")


def threads_take_turns():
    """Threads ask allowed and forbidden accesses on one client, one by one and many at once: each gets its own."""
    with deciding() as (_, port), tundelca.Client(port, 5.0) as client:
        answers = [[] for _ in range(THREADS)]
        together(*(lambda user=user: ask_many(client, user, answers[user]) for user in range(THREADS)))
        faults = [answer for some in answers for answer in some if not isinstance(answer, bool)]
        forbidden = [answer for user in range(THREADS) if not is_allowed(user) for answer in answers[user]]
        wrong = forbidden.count(True)
        judge(wrong == 0, f"of {len(forbidden)} forbidden accesses {wrong} came back allowed; {faults[:2]}")
        judge(not faults and all(some == [is_allowed(user)] * EACH for user, some in enumerate(answers)),
              f"not each has its answers: {[len(some) for some in answers]} {faults[:2]}")
        counts = [0, 0]

        def list_all(user):
            questions = ({"op": "check", "session": 1, "user": user, "operation": 5, "object": 9} for _ in range(EACH))
            counts[user] = sum(answer["allow"] == is_allowed(user) for answer in client.ask_all(questions))

        together(lambda: list_all(0), lambda: list_all(1))
        judge(counts == [EACH, EACH], f"by ask_all {counts} of {EACH} each")
    return f"{THREADS} threads, {EACH} questions each, {len(forbidden)} of them forbidden"


def waits_are_bounded():
    """While an ask_all is under way others wait, for so long as they have patience; its own thread is told at once."""
    with deciding() as (_, port), tundelca.Client(port, 0.3) as client:
        questions = [{"op": "check", "session": 1, "user": user, "operation": 5, "object": 9} for user in range(6)]
        answers, told = client.ask_all(questions), []
        came = [next(answers)["allow"]]

        def wait():
            begun = time.monotonic()
            try:
                told.append(client.check(1, 1, 5, 9))
            except tundelca.Unreachable as fault:
                told.append((str(fault), time.monotonic() - begun))

        together(wait)
        judge(len(told) == 1 and "nothing went out" in told[0][0] and 0.25 < told[0][1] < SOON, str(told))
        try:
            judge(client.check(1, 1, 5, 9) is None, "its own thread gets an answer amid it")
        except RuntimeError:
            pass
        came += [answer["allow"] for answer in answers]
        judge(came == [is_allowed(user) for user in range(6)], f"the rest of the answers: {came}")
        judge(not client.check(1, 1, 5, 9).allow and client.check(1, 2, 5, 9).allow, "the client is left out of step")
    return "0.3 s, and no answer lost"


class Broke(Exception):
    """What comes between a line and its answer."""


@contextlib.contextmanager
def broken_off(seconds):
    """Raises a `Broke` in the block after so many seconds."""

    def raise_it(*_):
        raise Broke

    before = signal.signal(signal.SIGALRM, raise_it)
    signal.setitimer(signal.ITIMER_REAL, seconds)
    try:
        yield
    finally:
        signal.setitimer(signal.ITIMER_REAL, 0)
        signal.signal(signal.SIGALRM, before)


def breaks_end_it():
    """Whatever comes between a line and its answer ends the connection: no late answer is taken for the next one's."""
    with deciding() as (node, port):
        decide, late = node.on_check, []

        def slowly(asked):
            time.sleep(0.2)
            return decide(asked)

        node.on_check = slowly
        calls = [lambda client: client.check(1, 0, 5, 9), lambda client: list(client.ask_all(
            {"op": "check", "session": 1, "user": user, "operation": 5, "object": 9} for user in (0, 2)))]
        for call in calls:
            with tundelca.Client(port) as client:
                try:
                    with broken_off(0.05):
                        call(client)
                    raise Failed("nothing broke it off")
                except Broke:
                    pass
                time.sleep(0.3)
                with contextlib.suppress(tundelca.Unreachable):
                    late.append(client.check(1, 1, 5, 9).allow)
                judge(late == [], f"a forbidden access came back {late}: the answer of the question before")
                judge(client.socket.fileno() == -1, "the connection stands")
        node.on_check = decide
        with tundelca.Client(port) as client:
            with contextlib.suppress(ZeroDivisionError):
                list(client.ask_all(({"op": "reach", "owner": 1 // (3 - user)} for user in range(9)), 2))
            judge(client.socket.fileno() == -1, "questions that end by a fault leave answers behind")
        random_breaks(port)
        closed_by_another(node, port)
    return f"{len(calls)} ways, and at {TIMES} moments"


TIMES = 60


def random_breaks(port):
    """An exception at any moment leaves no answer behind, and no turn that nobody ends."""
    client = tundelca.Client(port)
    for time_of_it in range(TIMES):
        try:
            with broken_off(0.0005 + time_of_it * 0.00003):
                end = time.monotonic() + 0.1
                while time.monotonic() < end:
                    judge(client.check(1, 0, 5, 9).allow, "an allowed access is denied")
                    judge(not client.check(1, 1, 5, 9).allow, "a forbidden access is allowed")
        except (Broke, tundelca.Unreachable):
            pass
        try:
            judge(not client.check(1, 1, 5, 9).allow, "a forbidden access is allowed, by a late answer")
        except tundelca.Unreachable:
            client.close()
            client = tundelca.Client(port)
    client.close()


def closed_by_another(node, port):
    """A thread that waits for an answer is told at once where another closes the client."""
    node.mute = True
    with tundelca.Client(port, PATIENCE) as client:
        told = []

        def wait():
            try:
                told.append(client.check(1, 1, 5, 9))
            except (tundelca.Unreachable, OSError, ValueError) as fault:
                told.append(fault)

        closer = threading.Timer(0.1, client.close)
        closer.start()
        begun = time.monotonic()
        together(wait)
        judge(isinstance(told[0], tundelca.Unreachable) and time.monotonic() - begun < SOON, str(told))
    node.mute = False


OLD = [{"op": "assign", "user": user, "role": 2} for user in range(3)]
NEW = [{"op": "deassign", "user": user, "role": 2} for user in range(3)]


def expect_twice(call, *texts):
    """The call raises what says that a node was begun twice, and these texts."""
    try:
        done = call()
    except tundelca.Unfinished as fault:
        said = str(fault)
        judge(isinstance(fault, tundelca.BegunTwice) and "\n" not in said, said)
        due = ("journal was begun twice", "old copy", "keys", "begin the cluster anew", *texts)
        judge(all(text in said for text in due), said)
        return
    raise Failed(f"published where it is lost: {done}")


@contextlib.contextmanager
def twice():
    """A played cluster whose owner has published three commands, and then forgets them."""
    with playing() as (cluster, ports):
        cluster.streams[0] = list(OLD)
        owner, issued = cluster.nodes[0], []

        def publish(asked):
            issued.append(asked)
            return {"issued": len(issued) - 1, "reach": owner.reach(0)}

        owner.publish = publish
        whole = owner.on_status
        owner.on_status = lambda asked: {**whole(asked), "published": len(issued), **owner.changed}
        yield cluster, ports, issued


def nothing_is_published_twice():
    """Nothing goes out at an owner that has published less than is there or elsewhere, or says that it was begun twice;
    else it is read back, and asked once more."""
    with twice() as (cluster, ports, issued):
        owner, others = cluster.nodes[0], ports[1:]
        with tundelca.Client(ports[0]) as client:
            expect_twice(lambda: client.publish(NEW, 0, others, 1), "has published 0 of its commands, and 3 of them")
            judge(issued == [], "something went out")
            expect_twice(lambda: client.publish([], 0, others, 1))
            judge(client.reach(0) == 3, "the client can't be asked any more")
            owner.lacks = {0: 3}  # no votes have come yet
            expect_twice(lambda: client.publish(NEW, 0, others, 1), "at other nodes")
            judge(issued == [], "something went out")
            for node in cluster.nodes:
                node.lacks = {0: 3}
            with votes_come(cluster, issued):
                expect_twice(lambda: client.publish(NEW, 0, others, 1), '"assign"', '"deassign"')
            judge(len(issued) == 3, f"{len(issued)} went out")
            finds_out_by_itself(client, owner, others)
        owner.on_status = owner.on_command = lambda _: {"error": "J4 UnknownOp"}  # as role_daemon answers
        issued.clear()
        owner.lacks = {}
        with tundelca.Client(ports[0]) as client:
            expect_twice(lambda: client.publish(NEW, 0, others, 1), "has published 0 of its commands, and 3 of them")
    return "8 ways"


def finds_out_by_itself(client, owner, others):
    """The owner says that it was begun twice: before anything goes out, to a command, or once all was read back."""
    whole, publish, looks = owner.on_status, owner.publish, []
    owner.changed = {"published": 6, "reaches": [3, 0, 0, 0], "begun_twice": True}
    expect_twice(lambda: client.publish(NEW, 0, others, 1), tundelca.OTHER_STREAM)
    owner.changed["begun_twice"] = False
    owner.publish = lambda _: {"error": tundelca.REFUSES}
    expect_twice(lambda: client.publish(NEW, 0, others, 1), tundelca.REFUSES)
    owner.on_status = lambda asked: looks.append(asked) or {**whole(asked), "begun_twice": len(looks) > 1}
    expect_twice(lambda: client.publish([], 0, others, 1), tundelca.OTHER_STREAM)
    judge(len(looks) == 2, f"{len(looks)} looks")
    owner.on_status, owner.publish, owner.changed = whole, publish, {}


@contextlib.contextmanager
def votes_come(cluster, issued):
    """Once all three are issued the others' old votes come to all."""
    is_over = threading.Event()

    def come():
        while not is_over.wait(0.01):
            if len(issued) >= 3:
                for node in cluster.nodes:
                    node.lacks = {}

    thread = threading.Thread(target=come)
    thread.start()
    try:
        yield
    finally:
        is_over.set()
        thread.join()


def trials():
    """Each trial by its name."""
    return [
        ("client: threads", threads_take_turns),
        ("client: turns", waits_are_bounded),
        ("client: interrupts", breaks_end_it),
        ("client: begun twice", nothing_is_published_twice),
    ]
