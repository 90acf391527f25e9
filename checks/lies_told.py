"""Each word of tundelca-ctl, and the board, beside a node that answers what it likes. For checks/tools_tried.py.

The liar is the last of a played cluster, or the one node that a word asks. A word has to end with status 2 and one line
that says *a node answers what no node says*, with the port, and never with a traceback; in its own time (`--patience`)
and two seconds, and in 64 MB of memory, or 256 where it asks for listings.
"""
import json
import os
import subprocess
import sys
import tempfile
import time

from cluster import TOP, tundelca
from runner import judge, wait_until
from tool_runs import AWAY, BEHIND, PATIENCE, READY, REFUSED, ended, fetch, playing, serving

ASKED, SHORT = 1.0, 0.2  # seconds of patience, and of patience beside a node that is silent
MORE = 2.0  # seconds that a word may take beside it
SMALL, LARGE = 64, 256  # MB
TOO_MUCH = 1 << 64
WORDS = 13  # of `tries`, and then those that ask for what one likes
FOREVER = 4_000_000_000  # bytes, which is more than anybody waits for
BLOCK = 1 << 16  # bytes
COMMAND = {"op": "assign", "role": 2, "user": 7}
TRUE = {  # what a node may say
    "reach": {"reach": 301},
    "assign": {"issued": 300, "reach": 301},
    "command": {"command": COMMAND},
    "sessions": {"at": 1, "sessions": [[1, 7], [3, 7]]},
    "close": {"done": True},
    "open": {"session": 1},
    "check": {"allow": True, "at": 7, "role": 2},
    "decide": {"allow": True, "at": 7, "reach": 2, "role": 2},
    "assigned_users": {"at": 1, "users": [7, 8]},
    "role_permissions": {"at": 1, "permissions": [[5, 9], [5, 10]]},
    "session_roles": {"at": 1, "roles": [3, 2]},
    "again": {"again": 3},
    "stop": {"stopped": True},
}
ODD = [None, "7", 1.5, -1, TOO_MUCH, 1e300, [], {}, [[[]]], [None], float("nan")]
LINES = [  # to any question
    b"", b"\n", b"7\n", b"null\n", b"[]\n", b"{}\n", b"nonsense\n", b"HTTP/1.1 400 Bad Request\n", b"\xff\xfe\x00\n",
    b"[" * 900 + b"\n", b"[" * 900 + b"]" * 900 + b"\n", b'{"a":' * 150 + b"1" + b"}" * 150 + b"\n",
    b'{"reach":' + b"9" * 990 + b"}\n", b'{"error":7}\n', b'{"error":null}\n', b'{"error":"no"}\n',
    b'{"error":["J4 UnknownOp"]}\n',
    b'{"error":"F3 Busy","more":1}\n', b'{"error":"J5 Missing","name":7}\n',
    b'{"error":"A1 \x1b[31mred\\u001b[2J"}\n', b'{"error":"J4 UnknownOp' + b"x" * 2_000 + b'"}\n',
]


def line(answer):
    return json.dumps(answer, separators=(",", ":")).encode() + b"\n"


def changed(answer):
    """The answer with each of its members odd, absent, and with one too many; and the same within it."""
    for name, value in answer.items():
        yield {other: kept for other, kept in answer.items() if other != name}
        for odd in ODD:
            if not (type(odd) is type(value) is list and odd == []) and not (name == "command" and odd is None):
                yield {**answer, name: odd}
        if isinstance(value, dict):
            yield from ({**answer, name: inner} for inner in changed(value))
        elif isinstance(value, list) and value:
            yield from ({**answer, name: [odd, *value[1:]]} for odd in ODD)
            yield {**answer, name: [*value, value[0]]}
            if isinstance(value[0], list):
                yield from ({**answer, name: [[odd, 7]]} for odd in ODD)
                yield from ({**answer, name: [[7, odd]]} for odd in ODD)
                yield from ({**answer, name: [pair]} for pair in ([], [7], [7, 7, 7], {"7": 7}))
    yield {**answer, "more": 1}


def lies_to(op):
    """What no node says to this operation."""
    yield from (b"{}\n" if not lie else lie for lie in LINES)
    yield from map(line, changed(TRUE[op]))
    yield from (line(answer) for answer in {
        "reach": [{"reach": 10**18}, {"reach": 1 << 63}, {"reach": tundelca.PLACES + 1}, {"reach": True}],
        "assign": [{"issued": tundelca.PLACES, "reach": 0}, {"issued": True, "reach": 0}],
        "command": [{"command": {"op": "fly"}}, {"command": {"op": "stop"}}, {"command": {"op": ["assign"]}},
                    {"command": {**COMMAND, "owner": 1}}, {"command": {**COMMAND, "place": 0}},
                    {"command": {**COMMAND, "role": 1 << 16}}, {"command": {**COMMAND, "user": 1 << 32}}],
        "sessions": [{"at": 1, "sessions": [[0, 7]]}, {"at": 1, "sessions": [[3, 7], [1, 7]]},
                     {"at": 1, "sessions": [[1, 7], [1, 8]]},
                     {"at": 1, "sessions": [[at + 1, 7] for at in range(101)]}],
        "close": [{"done": False}, {"done": 1}, {"error": "fly"}],
        "check": [{"allow": 1, "at": 7, "role": 2}, {"allow": "true", "at": 7, "role": 2}, {"allow": True, "at": 7},
                  {"allow": False, "at": 7, "rule": "N6"}, {"allow": False, "at": 7, "role": 2}],
        "decide": [{"allow": True, "at": 7, "role": 2}, {"allow": False, "at": 7, "reach": 2, "rule": "N1"},
                   {"allow": True, "at": 7, "reach": tundelca.PLACES + 1, "role": 2}],
        "assigned_users": [{"at": 1, "users": [8, 7]}, {"at": 1, "users": [7, 7]}, {"at": 1, "users": [1 << 32]}],
        "role_permissions": [{"at": 1, "permissions": [[5, 10], [5, 9]]}, {"at": 1, "permissions": [[1 << 16, 9]]}],
        "again": [{"again": 4}], "session_roles": [{"at": 1, "roles": list(range(65))}],
        "open": [{"session": True}], "stop": [{"stopped": False}],
    }.get(op, []))


def odd_standings(well):
    """What no node says of itself; a later one may say more, so a member too many is well."""
    peer, journal = next(filter(None, well["peers"])), {"last": 1, "mean": 2, "sound": True, "syncs": 3, "worst": 4}
    more = [{**well, "limit": 0}, {**well, "limit": 1 << 62}, {**well, "at": 10**18}, {**well, "at": well["limit"] + 1},
            {**well, "peers": [None] * 4}, {**well, "peers": [peer] * 4}, {**well, "peers": well["peers"] * 60},
            {**well, "reaches": [0] * 3}, {**well, "reaches": [10**18] * 4}, {**well, "sessions": 4_097},
            {**well, "published": 1 << 21}, {**well, "unopened": TOO_MUCH}, {**well, "journal": {}},
            {**well, "peers": [{**peer, "again": 1e18}, *well["peers"][1:]]}, {**well, "x": "x" * 66_000}]
    more += [{**well, "begun_twice": odd} for odd in (None, 0, 1, "true", [True])]
    more += [{**well, "f": odd} for odd in [*ODD, 2, True]]
    more += [{**well, name: odd} for name in ("acts", "acts_share") for odd in [*ODD, 1 << 23, [1]] if odd is not None]
    more += [{**well, "shares": odd} for odd in (None, 7, [], [1] * 3, [1] * 5, [1 << 21] * 4, [-1] * 4, ["1"] * 4)]
    more += [{**well, "journal": {**journal, name: odd}} for name in journal for odd in ODD]
    more += [{**well, "peers": [{**peer, name: odd}, *well["peers"][1:]]} for name in peer for odd in ODD]
    yield from (b"{}\n" if not lie else lie for lie in LINES)
    for answer in [*changed(well), *more]:
        if answer != well and {**answer, "more": 0} != {**well, "more": 0} and answer.get("journal", 0) is not None:
            yield line(answer)


def all_that_nodes_say_fits():
    """Each stored answer of a node is of its form, so no correct node is taken for a liar."""
    count, top = 0, TOP
    for path, first in [("operators/one_node", 0), *((f"pipe/{name}", 1) for name in os.listdir(f"{top}/examples/pipe")
                                                     if "." not in name)]:
        with open(f"{top}/examples/{path}", "rb") as asked, open(f"{top}/examples/{path}.stdout", "rb") as answers:
            for question, answer in zip(asked.read().split(b"\n")[first:], answers.read().splitlines()):
                request = question_in(question)
                judge(tundelca.read_answer(request, answer.decode()) is not None, f"{path}: {question!r}, {answer!r}")
                count += 1
    judge(count > 90, f"{count} answers alone")
    return f"{count} answers"


def question_in(line):
    """The request in a line; of what is none, one that gets a refusal too."""
    try:
        request = json.loads(line)
        return request if isinstance(request["op"], str) else {"op": "fly"}
    except (ValueError, KeyError, TypeError):
        return {"op": "fly"}


def endless(_):
    """A line without end."""
    block = b'{"at":1,"users":[' + b"7," * (BLOCK // 2)
    for _ in range(FOREVER // BLOCK):
        yield block
        block = b"7," * (BLOCK // 2)


def pages(asked):
    """Sessions without end."""
    return line({"at": 1, "sessions": [[asked["from"] + at, 7] for at in range(100)]})


def tries(ports, files):
    """For each word of the tool what it asks the liar for."""
    last, others = ports[3], ports[:3]
    return [
        (["status", *ports], ["status"]), (["status", "--json", *ports], ["status"]),
        (["health", last, "--of", *others], ["status"]), (["metrics", *ports], ["status"]),
        (["stream", 0, last], ["reach", "command"]), (["stream", 0, last, "--from", 299], ["command"]),
        (["diff", ports[0], last], ["reach", "command"]),
        (["diff", last, ports[0], "--owner", 0], ["reach", "command"]),
        (["sessions", last], ["sessions"]), (["sessions", last, "--close-user", 7], ["sessions", "close"]),
        (["publish", files["commands"], last, *others], ["status", "reach", "assign", "command"]),
        (["begin-anew", "keep", files[0], last], ["status", "assigned_users", "role_permissions"]),
        (["begin-anew", "publish", files["kept"], files[3], *others], ["status", "reach", "assign", "command"]),
        *((["ask", last, op, *(f"{name}=1" for name in ("user", "role", "session", "operation", "object", "owner",
                                                          "place", "from"))], [op]) for op in TRUE),
        (["ask", last, "status"], ["status"]), (["ask", last, "fly"], ["fly"]),
        (["ask", last, "sessions"], ["sessions"]),
    ]


def words_end_well():
    """Each word beside each lie to each of its questions."""
    with playing() as (cluster, ports), tempfile.TemporaryDirectory(prefix="tundelca-") as folder:
        liar, count, begun = cluster.nodes[3], 0, time.monotonic()
        cluster.owners[4] = 3
        liar.sessions = {1: 7, 3: 7}
        for command in ("open", "check", "decide", "again", "stop", "session_roles"):
            setattr(liar, f"on_{command}", lambda _, answer=TRUE[command]: answer)
        files = written(folder, ports)
        well = liar.on_status(None)
        lies = {"status": list(odd_standings(well)), "fly": [line({"done": True}), *LINES[1:10]],
                **{op: list(lies_to(op)) for op in TRUE}}
        for words, ops in tries(ports, files):
            for op in ops:
                for lie in lies[op]:
                    liar.lies = {op: lie}
                    beside(liar, words, lie)
                    count += 1
    return f"{count} lies, {(time.monotonic() - begun) / count * 1000:.1f} ms each"


def written(folder, ports):
    """Files that words ask for: cluster files by the node's name, and commands."""
    files = dict(enumerate(tundelca.cluster_files(folder, [(2, 0), (3, 1), (4, 3)], [1, 2, 3, 4], ports, 1)))
    files["commands"] = os.path.join(folder, "commands")
    with open(files["commands"], "w", encoding="ascii") as file:
        file.write('{"op":"assign","user":7,"role":4}\n')
    files["kept"] = os.path.join(folder, "kept")
    with open(files["kept"], "w", encoding="ascii") as file:
        json.dump({"4": {"users": [7], "permissions": []}}, file)
    return files


def beside(liar, words, lie):
    """The word ends as it has to beside the liar."""
    begun = time.monotonic()
    patience = ["--patience", ASKED]
    said = ended(*words, *patience)
    took = time.monotonic() - begun
    shown = f"{words} beside {lie[:120]!r}: {said[0]} {said[1][-300:]} {said[2][-300:]}"
    judge(took < ASKED + MORE, f"{shown}: {took:.1f} s")
    judge("Traceback" not in said[2] and "\x1b" not in said[1] + said[2], shown)
    judge(said[0] == AWAY, shown)
    if words[0] != "metrics":
        text = said[1] + said[2]
        judge("a node answers what no node says" in text and str(liar.port) in text, shown)


def silence_is_short():
    """Each word beside a node that is silent, that answers by drops, or each line late: it ends in its time."""
    with playing() as (cluster, ports), tempfile.TemporaryDirectory(prefix="tundelca-") as folder:
        liar, files, longest = cluster.nodes[3], written(folder, ports), 0.0
        cluster.owners[4] = 3

        def late(_):
            time.sleep(0.8 * SHORT)
            yield b'{"error":"J4 UnknownOp"}\n'

        def slowly(_):
            time.sleep(0.8 * SHORT)
            yield b'{"reach":7}\n'

        silent = [{"mute": True}, {"drips": 0.1}, {"lies": {"status": late, "reach": slowly}}]
        for words, ops in tries(ports, files)[:WORDS]:
            for how in [*silent, *({"lies": {op: b""}} for op in ops)]:
                for name, value in {"mute": False, "drips": None, "lies": {}, "sessions": {1: 7}, **how}.items():
                    setattr(liar, name, value)
                begun = time.monotonic()
                status, _, told = ended(*words, "--patience", SHORT)
                longest = max(longest, time.monotonic() - begun)
                is_well = how is silent[2] and status in (READY, BEHIND, REFUSED)  # it was not too slow
                shown = f"{words}, {how}: status {status}, {longest:.1f} s, {told}"
                judge((status == AWAY or is_well) and longest < SHORT + MORE, shown)
    return f"{longest:.1f} s at most, of which {SHORT} are patience"


WEIGHED = """
import sys
import tundelca_ctl
try:
    status = tundelca_ctl.main(sys.argv[1:])
except SystemExit as end:
    status = end.code
with open("/proc/self/status", encoding="ascii") as file:
    most = next(row for row in file if row.startswith("VmHWM"))
print(most.split()[1], file=sys.stderr)
sys.exit(status)
"""


def weighed(words, due, most, patience=ASKED):
    """The word as a process of its own ends with this status, within its time and so many MB, which it took."""
    begun = time.monotonic()
    alone = {**os.environ, "PYTHONPATH": os.path.join(TOP, "tools"), "PYTHONDONTWRITEBYTECODE": "1"}
    ran = subprocess.run([sys.executable, "-c", WEIGHED, *map(str, words), "--patience", str(patience)], env=alone,
                         stdout=subprocess.DEVNULL, stderr=subprocess.PIPE, text=True, timeout=PATIENCE)
    told, took = ran.stderr.splitlines(), time.monotonic() - begun
    judge(ran.returncode == due and len(told) <= 2, f"{words}: status {ran.returncode}, {ran.stderr[-400:]}")
    judge(took < patience + MORE, f"{words}: {took:.1f} s")
    megabytes = int(told[-1]) // 1024
    judge(megabytes <= most, f"{words}: {megabytes} MB")
    return megabytes


def memory_is_bounded():
    """Answers without end, listings as long as they may be and longer, and lists that never end."""
    with playing() as (cluster, ports), tempfile.TemporaryDirectory(prefix="tundelca-") as folder:
        liar, files, taken = cluster.nodes[3], written(folder, ports), [0, 0]
        for words, lies in [(["status", *ports], {"status": endless}), (["stream", 0, ports[3]], {"command": endless}),
                            (["diff", ports[0], ports[3]], {"reach": endless}),
                            (["sessions", ports[3]], {"sessions": endless}),
                            (["sessions", ports[3]], {"sessions": pages})]:
            liar.lies = lies
            taken[0] = max(taken[0], weighed(words, AWAY, SMALL))
        keep, ask = ["begin-anew", "keep", files[3]], ["ask", ports[3], "role_permissions", "role=4"]
        most = [[at >> 10, 4_000_000_000 + at % 1_024] for at in range(tundelca.ITEMS)]
        for words, listing, due in [
                (ask, told_pairs(most), READY), (ask, told_pairs([*most, [65_000, 1]]), AWAY), (keep, endless, AWAY),
                (keep, told_pairs(most[:700_000]), AWAY),  # for each of three roles, which is over a million
                (keep, b'{"at":1,"permissions":[' + b"[]," * 4_000_000 + b"[]]}\n", AWAY),
                (keep, b'{"at":1,"permissions":[' + b"[" * 12_000_000 + b"\n", AWAY),
                (keep, b'{"at":1,"permissions":[' + b"9" * 20_000_000 + b"]}\n", AWAY)]:
            liar.lies = {"role_permissions": listing}
            taken[1] = max(taken[1], weighed(words, due, LARGE, 5 * ASKED))
    return f"at most {taken[0]} MB, for listings {taken[1]}"


def told_pairs(pairs):
    """A listing of permissions, as a line."""
    return line({"at": 1, "permissions": pairs})


def board_goes_on():
    """The board beside each lie about how a node stands: it shows that node as away, and why."""
    with playing() as (cluster, ports), serving("board", "--port", 0, "--every", "0.02", "--patience", ASKED,
                                                *ports) as address:
        liar, count, longest = cluster.nodes[3], 0, 0.0
        lies = list(odd_standings(liar.on_status(None)))
        for lie in [*lies[::8], endless]:
            liar.lies = {}
            wait_until(lambda: state_of(address)[0] == ["ready"] * 4, "the liar says how it is")
            liar.lies, begun = {"status": lie}, time.monotonic()
            wait_until(lambda: state_of(address)[0][3] == "away", f"the liar is away: {str(lie)[:99]}")
            longest, count = max(longest, time.monotonic() - begun), count + 1
            states, text = state_of(address)
            judge(states[:3] == ["ready"] * 3 and "a node answers what no node says" in text, text[:400])
        judge(longest < MORE, f"a look took {longest:.1f} s")
    return f"{count} lies, shown in {longest:.2f} s at most"


def state_of(address):
    """The state of each node as the board shows it, and the text of all."""
    text = fetch(address + "state.json?since=1000000000")[2]
    return [node["state"] for node in json.loads(text)["now"]["nodes"]], text


def trials():
    """Each trial by its name."""
    return [
        ("tools: what nodes say", all_that_nodes_say_fits),
        ("tools: beside lies", words_end_well),
        ("tools: beside silence", silence_is_short),
        ("tools: memory beside lies", memory_is_bounded),
        ("tools: board beside lies", board_goes_on),
    ]
