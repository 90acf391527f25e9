#!/usr/bin/env python3
"""Tries tools/tundelca_ctl.py and judges what comes: tools_tried.py [CHECKOUT] [--only WORD]

On the built programs, and on nodes that a script plays (played.py), which are also what no correct node is: mute, far
behind, full, or liars. run_all runs these trials among its own.
"""
import json
import os
import pty
import re
import subprocess
import tempfile
import time

import client_tried
import lies_told
import played
import runner
import shares_tried
import standings_tried
from cluster import Cluster, tundelca
from runner import judge, wait_until
from tool_runs import (
    AWAY, BEHIND, MAY_LIE, NODES, PATIENCE, READY, REFUSED, TOOL, WRONG, ended, fetch, made_by_tool, playing, process,
    serving, tool)

PAIRS = 5_000  # that are published, kept and published anew
COMMANDS = ["try", "policy", "status", "health", "metrics", "board", "ask", "stream", "diff", "publish", "sessions",
            "stop", "lab", "key", "file", "files", "check", "begin-anew"]


def words_are_told():
    """Each command says how it is used; what is wrong is told in a line."""
    judge(tool("--help").count("\n") > 20, "no help")
    for command in COMMANDS:
        text = tool(command, "--help")
        judge("examples:" in text and "tundelca-ctl" in text, text)
    wrong = [["fly"], ["status"], ["status", "99999"], ["status", "/none.json"], ["health", "7400", "--lag", "x"],
             ["ask", "7400", "reach", "owner"], ["board", "7400"], ["publish", "/none", "7400"],
             ["stream", "-1", "7400"], ["lab", "/none"], ["begin-anew", "keep", "7400"], ["key", "--show", "/none"],
             ["metrics", "7400", "--port", "99999"]]
    for words in wrong:
        tool(*words, status=WRONG)
    status, said, told = process("health", "7400", "--lag", "x")
    judge((status, said, told.count("\n")) == (WRONG, "", 1), told)
    status, said, told = process("health", tundelca.free_ports(1)[0])
    judge((status, said[:6], told) == (AWAY, "away: ", ""), said + told)
    return f"{len(COMMANDS)} commands, {len(wrong)} wrong words"


def colours_are_for_terminals():
    """Colours stand on a terminal, and not where NO_COLOR is set; --watch goes on there until it is interrupted."""
    with playing() as (_, ports):
        judge("\x1b" not in tool("status", *ports), "colours in a file")
        for more, due in (({}, True), ({"NO_COLOR": "1"}, False)):
            environment = {name: value for name, value in os.environ.items() if name != "NO_COLOR"}
            here, there = pty.openpty()
            ran = subprocess.run([*TOOL, "status", *map(str, ports)], stdout=there, timeout=PATIENCE,
                                 env={**environment, "TERM": "xterm", **more})
            os.close(there)
            text = os.read(here, 1 << 16).decode()
            os.close(here)
            judge(ran.returncode == 0 and ("\x1b[" in text) == due, f"{more}: {text!r}")
        tool("status", "--every", "0.1", *ports, status=WRONG)
        tool("status", "--watch", "0.1", *ports, status=WRONG)
        with serving("status", "--watch", *ports) as first:
            judge("nodes answer" in first, first)
        with serving("status", "--watch", "--every", "0.1", *ports) as first:
            judge("nodes answer" in first, first)
    return "with and without"


def streams_are_read():
    """A stream as lines, from a place on, and followed while its node goes away and comes again; a lie is found."""
    with playing() as (cluster, ports), tempfile.TemporaryDirectory(prefix="tundelca-") as folder:
        with tundelca.Client(ports[1]) as client:
            client.socket.sendall(b'{"op":"reach","owner":1}\n' * 3)
            judge([client.lines.readline() for _ in range(3)] == ['{"reach":1}\n'] * 3, "not three lines")
            judge(client.reach(0) == 300, "not the next")
        lines = tool("stream", 0, ports[1]).splitlines()
        due = '{"owner":0,"place":7,"op":"assign","role":2,"user":7}'
        judge(len(lines) == 300 and lines[7] == due, str(lines[7:8]))
        judge(tool("stream", 0, ports[1], "--from", 290).splitlines() == lines[290:], "another end")
        path = os.path.join(folder, "followed")
        with open(path, "w", encoding="ascii") as file:
            ran = subprocess.Popen([*TOOL, "stream", "0", str(ports[1]), "--follow", "--seconds", "4"], stdout=file,
                                   stderr=subprocess.PIPE, text=True)
            wait_until(lambda: os.path.getsize(path) > 0, "the first lines")
            cluster.nodes[1].end()
            for user in range(300, 310):
                cluster.nodes[0].publish({"op": "assign", "user": user, "role": 2})
            time.sleep(0.5)
            cluster.nodes[1] = played.Node(cluster, 1, ports[1])
            told = ran.communicate(timeout=PATIENCE)[1]
        with open(path, encoding="ascii") as file:
            places = [json.loads(line)["place"] for line in file]
        judge(places == list(range(310)) and ran.returncode == 0, f"{places[-20:]} {told}")
        judge("the same for 310 commands" in tool("diff", *ports[:2]), "not the same")
        cluster.nodes[3].lacks = {0: 4}
        judge(f"port {ports[0]} has 4 more" in tool("diff", ports[0], ports[3]), "not behind")
        cluster.nodes[3].on_command = lambda asked: {"command": {"op": "clear", "role": asked["place"]}}
        judge("differs at place 0" in tool("diff", ports[0], ports[3], status=BEHIND), "no difference")
    return "310 commands, followed over an end"


def sessions_are_closed():
    """Open sessions, more than a page of them, and an end to those of one user."""
    with playing() as (cluster, ports):
        for user in range(250):
            cluster.nodes[2].on_open({"user": user % 2 + 7})
        judge(tool("sessions", ports[2]).endswith("\n250 sessions open\n"), "not 250")
        judge(json.loads(tool("sessions", ports[2], "--json").splitlines()[120]) == {"session": 121, "user": 7}, "")
        judge(tool("sessions", ports[2], "--close-user", 7) == "closed 125 sessions of user 7\n", "not 125")
        judge(tool("sessions", ports[2], "--user", 7) == "0 sessions open\n", "some left")
        judge("125 sessions of 1 user" in tool("sessions", ports[2], "--users"), "")
        cluster.nodes[2].on_sessions = lambda _: {"at": 1, "sessions": [[1 + at, 7] for at in range(100)]}
        tool("sessions", ports[2], status=AWAY)  # that would have no end
    return "250, of which 125 were closed"


def metrics_are_served():
    """Text in which each sample has its help and its kind; who asks by another name, or for more, is refused."""
    with playing() as (cluster, ports):
        away = tundelca.free_ports(1)[0]
        tool("metrics", *ports, away, status=AWAY)
        with serving("metrics", "--port", 0, *ports, away) as address:
            status, headers, text = fetch(address)
            judge(status == 200 and headers["Content-Type"].startswith("text/plain; version=0.0.4"), str(headers))
            kinds = dict(re.findall(r"(?m)^# TYPE (\w+) (gauge|counter)$", text))
            for line in text.splitlines():
                sample = re.fullmatch(r'(\w+)(\{\w+="\w+"(,\w+="\w+")*\})? \d+(\.\d+)?', line)
                judge(line.startswith(("# HELP ", "# TYPE ")) or sample and sample.group(1) in kinds, line)
            for line in (f'tundelca_up{{port="{ports[0]}"}} 1', f'tundelca_up{{port="{away}"}} 0',
                         f'tundelca_reach_commands{{port="{ports[2]}",owner="0"}} 300',
                         f'tundelca_peer_heard{{port="{ports[0]}",peer="3"}} 1'):
                judge(line in text.splitlines(), line)
            judge(fetch(address, method="POST")[0] == 405 and fetch(address + "x")[0] == 404, "more than it has")
            judge(fetch(address, {"Host": "elsewhere.example"})[0] == 421, "by another name")
            tool("metrics", "--port", re.search(r":(\d+)/", address).group(1), *ports, status=WRONG)
    return f"{len(kinds)} metrics"


def board_is_served():
    """The page, its parts, what it asks for; a strict policy, and nothing from elsewhere."""
    with playing() as (cluster, ports):
        with serving("board", "--port", 0, "--every", "0.1", *ports) as address:
            for part in ("", "board.css", "board.js"):
                status, headers, text = fetch(address + part)
                policy = headers["Content-Security-Policy"].split("; ")
                judge(status == 200 and "default-src 'none'" in policy and "script-src 'self'" in policy, str(headers))
                judge(not re.search(r"(src|href|url|from|import)\W+(https?:)?//", text), f"{part} takes from elsewhere")
                judge("innerHTML" not in text and not re.search(r"\son\w+=|style=|<script>", text), f"{part} has code")
            status, _, text = fetch(address + "state.json")
            judge([node["state"] for node in json.loads(text)["now"]["nodes"]] == ["ready"] * NODES, text[:300])
            cluster.nodes[3].end()
            state = lambda: json.loads(fetch(address + "state.json")[2])
            wait_until(lambda: state()["now"]["nodes"][3]["state"] == "away", "a node is away")
            count = state()["count"]
            later = json.loads(fetch(f"{address}state.json?since={count}")[2])
            judge(len(later["samples"]) == later["count"] - count, "samples twice")
            for method in ("POST", "PUT", "DELETE", "OPTIONS"):
                judge(fetch(address, method=method)[0] == 405, method)
            judge(fetch(address + "state.json", {"Host": "elsewhere.example"})[0] == 421, "by another name")
    return "three parts, and how it is"


def files_fit_together():
    """Four owners who see none but their own keys make files that fit; those that don't are told by name."""
    with tempfile.TemporaryDirectory(prefix="tundelca-") as folder:
        path = lambda *names: os.path.join(folder, "".join(map(str, names)))
        prints = {}
        for one in range(NODES):
            for other in range(one + 1, NODES):
                prints[one, other] = tool("key", path("key", one, other)).split("  ")[0]
        tool("key", path("key", 0, 1), status=WRONG)  # it is there
        judge(tool("key", "--show", path("key", 0, 1)).startswith(prints[0, 1]), "another fingerprint")
        nodes, clients = (tundelca.free_ports(NODES) for _ in range(2))
        for me in range(NODES):
            keys = [f"{you}={path('key', min(me, you), max(me, you))}" for you in range(NODES) if you != me]
            said = tool("file", path("node", me), "--cluster", 5, "--me", me, "--may-lie", 1, "--roles", "2=0", "3=1",
                        "--client", clients[me], "--nodes", *nodes, "--keys", *keys)
            judge(all(prints[min(me, you), max(me, you)] in said for you in range(NODES) if you != me), said)
            judge(os.stat(path("node", me)).st_mode & 0o777 == 0o600, "others may read it")
        paths = [path("node", me) for me in range(NODES)]
        judge("165,564 places for 2 owners each" in tool("check", *paths), "it doesn't say how many places there are")
        tool("file", path("new"), "--like", paths[0], "--cluster", 6, status=WRONG)  # keys are wanted anew
        tool("file", path("new"), "--like", paths[0], "--client", clients[1])
        judge("both of node 0" in tool("check", paths[0], path("new"), status=BEHIND), "fits")
        tool("key", path("other"))
        tool("file", path("odd"), "--like", paths[1], "--cluster", 5, "--keys", f"0={path('other')}")
        judge("another key for their pair" in tool("check", paths[0], path("odd"), status=BEHIND), "fits")
        os.chmod(paths[2], 0o644)
        judge("chmod 600" in tool("check", *paths, status=BEHIND), "fits")
        return f"{len(prints)} keys, {NODES} files"


def policies_are_tested(lab):
    """What a change would allow, and tests of accesses, as role_lab answers."""
    kept = {"2": {"users": [7, 8], "permissions": [[5, 9]]}, "3": {"users": [8], "permissions": [[6, 9], [6, 10]]}}
    change = [{"op": "assign", "user": 9, "role": 2}, {"op": "revoke", "role": 3, "operation": 6, "object": 10},
              {"op": "grant", "role": 2, "operation": 5, "object": 11}]
    tests = [{"user": 9, "operation": 5, "object": 9, "allow": True},
             {"user": 8, "roles": [2], "operation": 6, "object": 9, "allow": False},
             {"user": 8, "roles": [2, 3], "operation": 6, "object": 9, "allow": True},
             {"user": 7, "roles": [3], "operation": 6, "object": 9, "allow": False},
             {"user": 8, "operation": 6, "object": 10, "allow": True}]
    with tempfile.TemporaryDirectory(prefix="tundelca-") as folder:
        paths = [os.path.join(folder, name) for name in ("kept", "change", "tests")]
        for path, rows in zip(paths, ([kept], change, tests)):
            with open(path, "w", encoding="ascii") as file:
                file.write("".join(json.dumps(row) + "\n" for row in rows))
        words = ["lab", paths[0], "--change", paths[1], "--program", lab]
        due = ["3 commands: what would change", "  + user 7 may do operation 5 on object 11",
               "  + user 8 may do operation 5 on object 11", "  - user 8 may no longer do operation 6 on object 10",
               "  + user 9 may do operation 5 on object 9", "  + user 9 may do operation 5 on object 11"]
        came = tool(*words).splitlines()
        judge(came == due, str(came))
        said = tool(*words, "--tests", paths[2], status=BEHIND)
        judge("FAILED  user 8, operation 6 on object 10: denied" in said, said)
        judge(said.endswith("4 passed, 1 failed\n"), said)
        judge(tool(*words, "--script").startswith("cluster 1 0\nrole 2 0\nrole 3 0\nissue 0 assign 7 2\n"), "no script")
        tool("lab", paths[0], "--change", paths[1], "--program", "/none", status=WRONG)
    return f"{len(due) - 1} changes, {len(tests)} tests"


def nodes_are_seen(program):
    """Of real nodes: how they stand, what they published, who has sessions, and what is told of one that was killed."""
    with made_by_tool(program, True) as (folder, nodes):
        paths, ports = nodes.paths, nodes.clients
        commands = os.path.join(folder, "commands")
        with open(commands, "w", encoding="ascii") as file:
            for user in range(500):
                file.write(json.dumps({"op": "assign", "user": user, "role": 2}) + "\n")
            file.write('{"op":"grant","role":3,"operation":5,"object":9}\n{"op":"deassign","user":7,"role":2}\n')
        judge("node 0: 501 commands" in tool("publish", "--check", commands, *paths), "another way")
        told = tool("publish", commands, *paths)
        judge(re.sub(r" \(.*\)", "", told) == "node 0: 501 commands\nnode 1: 1 command\n", told)
        nodes.reach_all(0, 501)
        nodes.reach_all(1, 1)
        status, table, _ = ended("status", *paths)  # 1 where the disk is slow
        judge("502 commands" in table and status in (READY, BEHIND), table)
        judge(tool("health", ports[0], "--of", *ports[1:]).startswith("ready: node 0"), "not ready")
        stream = tool("stream", 0, ports[3])
        judge(stream.count("\n") == 501 and stream.splitlines()[500].endswith('"op":"deassign","role":2,"user":7}'), "")
        judge("the same for 501 commands" in tool("diff", ports[1], ports[2]), "they differ")
        for user in (7, 8, 7):
            tool("ask", ports[1], "open", f"user={user}")
        judge(tool("sessions", ports[1], "--close-user", 7) == "closed 2 sessions of user 7\n", "not two")
        judge(tool("sessions", ports[1]).endswith("1 session open\n"), "not one")
        text = tool("metrics", ports[0])
        judge(re.search(r'(?m)^tundelca_journal_syncs_total\{port="\d+"\} [1-9]', text), text[:500])
        tool("ask", ports[3], "stop")
        tool("ask", ports[0], "assign", "user=7", "role=3", status=REFUSED)
        judge("3 of 4 nodes answer" in tool("status", *paths, status=AWAY), "still there")
        with serving("board", "--port", 0, "--every", "0.1", *ports) as address:
            state = json.loads(fetch(address + "state.json")[2])["now"]
            judge([node["state"] for node in state["nodes"]] == ["ready"] * 3 + ["away"], str(state)[:500])
    return "four nodes with journals, one of them stopped"


def clusters_begin_anew(program):
    """Three of four nodes keep what the roles hold; the next cluster has it, under new keys and the next number."""
    with made_by_tool(program, False) as (folder, nodes):
        old, ports = nodes.paths, nodes.clients
        pairs = [{"op": "assign", "user": user, "role": 2} for user in range(PAIRS)]
        with nodes.client(0) as owner:
            owner.publish(pairs, 0, ports[1:], MAY_LIE, in_order=False)
        tool("ask", ports[1], "grant", "role=3", "operation=5", "object=9")
        nodes.reach_all(0, PAIRS)
        nodes.reach_all(1, 1)
        kept = [os.path.join(folder, name) for name in ("kept", "other")]
        for path, words in zip(kept, (old[1:], [old[0], *ports[2:]])):
            with open(path, "w", encoding="ascii") as file:
                file.write(tool("begin-anew", "keep", *words))
        judge(tool("begin-anew", "compare", *kept) == f"the same: 2 roles, {PAIRS + 1:,} pairs\n", "not the same")
        for me, port in enumerate(ports):
            tool("ask", port, "stop")
            nodes.running[me].wait(PATIENCE)
        new = tool("begin-anew", "files", os.path.join(folder, "new"), *old).split()
        with Cluster(program, paths=new, waits=True) as later:
            holds_again(later, kept)
    return f"{PAIRS + 1:,} pairs"


def holds_again(nodes, kept):
    """What was kept is published at the nodes of the next cluster, and kept there again."""
    new = nodes.paths
    tool("begin-anew", "publish", kept[0], *new, "--deadline", "0.02", status=AWAY)
    told = tool("begin-anew", "publish", kept[0], *new, "--deadline", PATIENCE)
    due = f"node 0: {PAIRS:,} commands\nnode 1: 1 command\nnode 2: 0 commands\nnode 3: 0 commands\n"
    judge(re.sub(r" \(.*\)", "", told) == due, told)
    with nodes.client(0) as owner:
        end = owner.reach(0)
    nodes.reach_all(0, end)
    nodes.reach_all(1, 1)
    with open(kept[1], "w", encoding="ascii") as file:
        file.write(tool("begin-anew", "keep", *new))
    tool("begin-anew", "compare", *kept)


def cases(given):
    """The trials of the tool, and of its client, by their names."""
    tried = [
        ("tools: words", words_are_told),
        *standings_tried.trials(),
        *shares_tried.trials(),
        ("tools: colours, --watch", colours_are_for_terminals),
        ("tools: stream, diff", streams_are_read),
        ("tools: sessions", sessions_are_closed),
        ("tools: metrics", metrics_are_served),
        ("tools: board", board_is_served),
        *lies_told.trials(),
        *client_tried.trials(),
        ("tools: key, file, check", files_fit_together),
        ("tools: lab", lambda: policies_are_tested(given.program("role_lab"))),
        ("tools: nodes", lambda: nodes_are_seen(given.program("tundelca"))),
        ("tools: begin-anew", lambda: clusters_begin_anew(given.program("tundelca"))),
    ]
    return [runner.Case(*trial) for trial in tried]


if __name__ == "__main__":
    runner.main("tools", __doc__, cases)
