"""How tools show nodes that are ready, behind, begun twice or away: `status`, `health`, `metrics`, the board.

On nodes that a script plays (played.py), for checks/tools_tried.py.
"""
import json
import re
import subprocess

from cluster import tundelca
from ctl import findings, nodes
from runner import judge, wait_until
from tool_runs import AWAY, BEHIND, NODES, READY, REFUSED, TOOL, ended, fetch, playing, serving, tool


def states_are_told():
    """`status` and `health` of nodes that are ready, behind or away."""
    with playing() as (cluster, ports):
        last, port = cluster.nodes[3], ports[3]
        peers = last.on_status(None)["peers"]
        deaf = [peer and {**peer, "heard": False} for peer in peers]
        cut = [{**peers[0], "connected": False}, *peers[1:]]
        alone = [{**peers[0], "connected": False}, {**peers[1], "connected": False}, *peers[2:]]
        journal = {"last": 1, "mean": 2, "sound": False, "syncs": 3, "worst": 4}
        tries = [  # how the node is, the status of its health, that of `status`, what `status` says
            ({}, READY, READY, "4 of 4 nodes answer"),
            ({"lacks": {0: 100}}, BEHIND, BEHIND, "node 3 is 100 commands behind (of owner 0 it has 200 of 300)"),
            ({"changed": {"at": 4_194_304}}, BEHIND, BEHIND, "node 3 has a full history"),
            ({"changed": {"at": 4_000_000}}, READY, BEHIND, "node 3 has recorded 95 % of what it can"),
            ({"changed": {"journal": journal}}, BEHIND, BEHIND, "node 3 can't write its journal"),
            ({"changed": {"peers": deaf}}, BEHIND, BEHIND, "node 3 hears 0 of its 3 peers, too few"),
            ({"changed": {"peers": alone}}, READY, BEHIND, "node 3 hears and reaches 1 of its 3 peers, too few"),
            ({"changed": {"journal": {**journal, "sound": True, "mean": 60_000}}}, READY, BEHIND, "a sync takes 60 ms"),
            ({"changed": {"peers": cut}}, READY, READY, "node 0 reaches 3, and is not reached from there"),
            ({"changed": {"sessions": 4_096}}, READY, BEHIND, "4,096 of 4,096 open sessions"),
            ({"changed": {"published": 64}}, READY, BEHIND, "node 3 is busy: 64 of its commands are on their way"),
            ({"changed": {"reaches": [300, 1, 0, 3], "published": 2}}, BEHIND, BEHIND, "node 3 has published 2 of its "
             "commands, and 3 of them are there: its journal was begun twice"),
            ({"mute": True}, AWAY, AWAY, "no answer in time"),
            ({"drips": 0.05}, AWAY, AWAY, "no answer in time"),
            ({"garbage": b"HTTP/1.1 400\n"}, AWAY, AWAY, "what no node says"),
            ({"garbage": b'{"at":-1}\n'}, AWAY, AWAY, "what no node says"),
            ({"garbage": b'{"peers":[null,7]}\n'}, AWAY, AWAY, "what no node says"),
        ]
        for how, due, due_of_all, text in tries:
            well = {"lacks": {}, "changed": {}, "mute": False, "garbage": None, "drips": None}
            for name, value in {**well, **how}.items():
                setattr(last, name, value)
            said = tool("health", port, "--of", *ports[:3], "--patience", "0.3", status=due)
            judge(said.count("\n") == 1 and said.split(":")[0] in (
                [("ready",), ("behind", "begun twice"), ("away",)][due]), f"{how}: {said}")
            table = tool("status", *ports, "--patience", "0.3", status=due_of_all)
            judge(text in table, f"{how}: {table}")
        last.garbage, last.changed = None, {"peers": deaf, "reaches": [0] * NODES, "published": 0}
        tool("health", port)  # before anything is published nobody is heard
        last.changed = {"reaches": [1 << 20] * NODES, "published": 1 << 20}
        tool("health", ports[0], "--of", *ports[1:], status=BEHIND)
        tool("health", ports[0], "--of", *ports[1:], "--may-lie", 1)
        rows = [json.loads(row) for row in tool("status", "--json", *ports, status=BEHIND).splitlines()]
        judge([row["me"] for row in rows] == [0, 1, 2, 3] and rows[0]["reaches"] == [300, 1, 0, 0], str(rows))
        tool("health", tundelca.free_ports(1)[0], status=AWAY)
        last.changed, last.on_status = {}, lambda _: {"error": "J4 UnknownOp"}  # as role_daemon answers
        judge(tool("health", port, "--of", *ports[:3]).startswith(f"ready: the node at port {port}"), "no node")
        judge("301 commands" in tool("status", port), "it doesn't say what it has")
        last.on_sessions = last.on_status
        tool("sessions", port, status=REFUSED)
    return f"{len(tries)} kinds of nodes"


def tells_twice(node, others):
    """Whether each tool tells that the node at this port was begun twice, by its own word or by those of others."""
    health = tool("health", node, "--of", *others, "--may-lie", 1, status=BEHIND)
    judge(re.match("begun twice: node 0 (?:has published|says that its stream) ", health), health)
    judge("begin the cluster anew" in health, health)
    table = tool("status", node, *others, "--may-lie", 1, status=BEHIND)
    judge(re.search(r"(?m)^ +0 +\d+  begun twice ", table) and "begin the cluster anew" in table, table)
    text = tool("metrics", node, *others, "--may-lie", 1, status=BEHIND)
    judge(f'tundelca_begun_twice{{port="{node}"}} 1' in text, text)
    judge(all(f'tundelca_begun_twice{{port="{port}"}} 0' in text for port in others), text)
    with serving("board", "--port", 0, "--every", "0.1", "--may-lie", 1, node, *others) as address:
        seen = json.loads(fetch(address + "state.json")[2])["now"]
        judge([one["state"] for one in seen["nodes"]] == ["begun twice", *["ready"] * len(others)], str(seen)[:500])


def owners_are_overtaken():
    """An owner whose stream is further, at itself or at a correct other, than it has published, or who says that it was
    begun twice: each tool is red."""
    with playing() as (cluster, ports):
        owner, others = cluster.nodes[0], ports[1:]
        for changed in ({"published": 2}, {"published": 299}, {"published": 299, "reaches": [0, 1, 0, 0]},
                        {"begun_twice": True}):
            owner.changed = changed
            tells_twice(ports[0], others)
        owner.changed = {"published": 299, "reaches": [299, 1, 0, 0], "begun_twice": False}
        for node in cluster.nodes[2:]:
            node.lacks = {0: 1}  # and so one other alone has more than it published: that one may lie
        tool("health", ports[0], "--of", *others, "--may-lie", 1)
        tool("health", ports[0], "--of", *others, "--may-lie", 0, status=BEHIND)
        tool("health", ports[0], "--of", *others)  # nobody says how many may lie
        owner.changed, cluster.nodes[2].lacks = {}, {}
        whole, looks = owner.on_status, []

        def late(asked):
            """As it was before it published the last of what others had when they were asked."""
            looks.append(asked)
            return {**whole(asked), **({"published": 290, "reaches": [290, 1, 0, 0]} if len(looks) % 2 else {})}

        owner.on_status = late
        judge(tool("health", ports[0], "--of", *others, "--may-lie", 1).startswith("ready"), "it isn't asked again")
        judge(len(looks) == 2, f"{len(looks)} looks")
        tool("status", *ports, "--may-lie", 1)
        ask = {"issued": 5, "reach": 10}
        owner.publish = lambda _: ask
        status, said, told = ended("ask", ports[0], "assign", "user=7", "role=2")
        judge((status, json.loads(said)) == (BEHIND, ask) and "begin the cluster anew" in told, said + told)
        ask["reach"] = 6
        tool("ask", ports[0], "assign", "user=7", "role=2")
        owner.publish = lambda _: {"error": tundelca.REFUSES}
        status, _, told = ended("ask", ports[0], "assign", "user=7", "role=2")
        judge(status == BEHIND and tundelca.REFUSES in told and "begin the cluster anew" in told, told)
    return "by itself, by others, by its own word, and no more than it is"


def changes_are_told():
    """What takes two looks: `--watch` and the board tell of frames that are lost, and of a reach that stands still."""
    with playing() as (cluster, ports):
        last = cluster.nodes[3]
        whole, peers, lost = last.on_status, last.on_status(None)["peers"], [0]

        def losing(asked):
            """Frames for node 0 are lost from look to look; those for node 1, which isn't connected, tell nothing."""
            lost[0] += 2
            cut = {**peers[1], "connected": False, "lost": lost[0]}
            return {**whole(asked), "peers": [{**peers[0], "lost": lost[0]}, cut, *peers[2:]]}

        last.on_status = losing
        tool("status", *ports)
        with serving("board", "--port", 0, "--every", "0.1", *ports) as address:
            told = lambda: [found["text"] for found in json.loads(fetch(address + "state.json")[2])["now"]["findings"]]
            wait_until(lambda: any("node 3 lost 2 frames for node 0" in text for text in told()), "the board tells it")
            judge(not any("for node 1 since" in text for text in told()), str(told()))
        ran = subprocess.Popen([*TOOL, "status", "--watch", "--every", "0.1", *map(str, ports)], stdout=subprocess.PIPE,
                               text=True)
        lines = [line for line, _ in zip(ran.stdout, range(60))]
        ran.kill()
        ran.communicate()
        judge(any("node 3 lost 2 frames for node 0" in line for line in lines), "".join(lines))
        last.on_status, looks = whole, findings.Looks()

        def stands_still(lacks, now):
            """What is told of it at this time, where it lacks so many commands."""
            last.lacks = {0: lacks}
            seen = [nodes.Seen(nodes.Named(tundelca.door(node.port)), nodes.standing_of(node.on_status(None)))
                    for node in cluster.nodes]
            return [found.text for found in looks.sight(seen, 1, now).changes]

        judge(not any(stands_still(3, now) for now in (7.0, 12.0, 16.9)), "too soon")
        judge("at 297 of 300 commands of node 0 for 10 seconds" in "".join(stands_still(3, 17.0)), "nothing is told")
        judge(not any(stands_still(2, now) for now in (18.0, 27.9)) and not stands_still(0, 99.0), "what grows is told")
    return "frames lost, ten seconds behind"


def trials():
    """Each trial by its name."""
    return [
        ("tools: status, health", states_are_told),
        ("tools: begun twice", owners_are_overtaken),
        ("tools: changes", changes_are_told),
    ]
