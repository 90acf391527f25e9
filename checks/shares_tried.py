"""How tools tell what is left of shares, and for how long: `status`, `health`, `metrics`, the board, `begin-anew`.

On nodes that a script plays (played.py), for checks/tools_tried.py. Two of four nodes own roles, so each has 165,564
places; trials of an end have nodes say that a share is smaller.
"""
import json
import os
import re
import shutil

from cluster import Cluster, tundelca
from ctl import findings, metrics, nodes, shares, status
from ctl.terminal import Terminal
from played import ACTS_SHARE
from runner import judge, wait_until
from tool_runs import BEHIND, MAY_LIE, NODES, READY, ROLES, ended, fetch, playing, serving, tool

PLACES = {(4, 4): 85_019, (7, 7): 29_676, (16, 16): 5_946, (128, 128): 95,  # of each owner, by nodes and owners
          (4, 1): 314_572, (7, 1): 196_608, (16, 1): 92_521, (128, 1): 12_192, (4, 2): 165_564}
ENDS = "node 0 has used 93 % of its share: 20 of 320 places are left"
SPENT = "node 0 has used 100 % of its share: 0 of 300 places are left"
MORE = "node 0 has used 300 places, 44 more than its share"


def seen_of(cluster):
    """The nodes as a look of a tool sees them."""
    return [nodes.Seen(nodes.Named(tundelca.door(node.port)), nodes.standing_of(node.on_status(None)))
            for node in cluster.nodes]


def tells(port, others, text):
    """Whether each tool tells this of a node that is ready, by itself, beside others, once and again and again."""
    health = tool("health", port, "--of", *others)
    judge(health.startswith("ready: ") and text in health, health)
    table = tool("status", port, *others, status=BEHIND)
    judge(table.count(text) == 1, table)
    with serving("board", "--port", 0, "--every", "0.1", port, *others) as address:
        told = lambda: [found["text"] for found in json.loads(fetch(address + "state.json")[2])["now"]["findings"]]
        wait_until(lambda: text in told(), f"the board tells that {text}")


def shares_are_told():
    """What is left, where that is much, little, or less than none, and what a single node says that lies."""
    for (count, owners), due in PLACES.items():
        came = tundelca.places_each([(role, role % owners) for role in range(128)], count)
        judge(came == due, f"{count} nodes, {owners} owners: {came} places each")
    with playing() as (cluster, ports):
        health = tool("health", ports[0])
        judge("165,264 places left, 1,044,480 acts left" in health, health)
        judge("places left" not in tool("health", ports[3]), "a node without roles has places")
        table = tool("status", *ports)
        judge(re.search(r"(?m)^ +0 +300  165,264 +300 ", table), table)
        judge(re.search(r"(?m)^ +3 +\d+  ready .* 1,044,480 ", table), table)
        text = tool("metrics", *ports)
        for line in ('tundelca_left_places{owner="0"} 165264', f'tundelca_left_acts{{port="{ports[3]}"}} {ACTS_SHARE}',
                     f'tundelca_share_commands{{port="{ports[2]}",owner="2"}} 0',
                     f'tundelca_acts_total{{port="{ports[2]}"}} 0'):
            judge(line in text.splitlines(), f"{line}: {text}")
        judge("seconds{" not in re.sub("(?m)^tundelca_(look|journal).*$", "", text), "one look tells when a share ends")
        cluster.nodes[3].changed = {"shares": [1, 1, 0, 0]}
        tool("status", *ports)  # by one node alone, which may lie
        cluster.nodes[3].changed = {"acts": 1_000_000}
        tells(ports[3], ports[:3], "clients of node 3 have used 95 % of their share: 44,480 of 1,044,480 acts are left")
        cluster.nodes[3].changed = {"acts": ACTS_SHARE + 3}
        tells(ports[3], ports[:3], f"clients of node 3 have used {ACTS_SHARE + 3:,} acts, 3 more than their share")
        cluster.nodes[3].changed = {}
        for each, text in ((320, ENDS), (256, MORE), (300, SPENT)):
            cluster.shares = [each, each, 0, 0]
            tells(ports[3], ports[:3], text)
            judge(tundelca.shares_told(cluster.nodes[3].on_status(None)) == [text], "a gateway hears another")
        cluster.shares = [334, 334, 0, 0]
        tool("status", *ports)
        cluster.nodes[0].changed = {"published": 301}  # of which one is on its way
        tells(ports[0], ports[1:], "node 0 has used 90 % of its share: 33 of 334 places are left")
        cluster.nodes[0].changed, cluster.nodes[2].changed = {}, {"reaches": [500, 1, 0, 0], "published": 0}
        text = "node 2 has 500 commands of node 0, 166 more than its share, which come to no other node"
        judge(text in tool("status", "--may-lie", 1, *ports, status=BEHIND), "a journal beyond a share isn't told")
    return f"{len(PLACES)} sizes, shares that end"


def nodes_of_before():
    """Nodes that don't tell shares: nothing is said of any."""
    with playing() as (cluster, ports):
        for without in ({}, {"acts": 7, "acts_share": None, "shares": None}):
            for node in cluster.nodes:
                node.on_status = lambda asked, node=node, without=without: {
                    **{name: value for name, value in type(node).on_status(node, asked).items()
                       if name not in ("acts", "acts_share", "shares")}, **without}
            judge("left" not in tool("health", ports[0]), "it tells what is left")
            tool("status", *ports)
            judge("tundelca_left" not in tool("metrics", *ports), "it tells what is left")
            judge(tundelca.shares_told(cluster.nodes[0].on_status(None)) == [], "it tells a gateway")
    return "silent"


def ends_are_told():
    """When a share ends at the last ten minutes' rate: in `--watch`, in metrics and on the board."""
    with playing() as (cluster, _):
        looks, last = findings.Looks(), cluster.nodes[3]
        streams = cluster.streams[0]

        def look(now, commands, acts):
            """What is seen at this time, when so many commands are published and so many acts done."""
            streams[:] = [streams[0]] * commands
            last.acts = acts
            return looks.sight(seen_of(cluster), 1, now)

        def ends(sight):
            return sight.shares[0].ends, sight.shares[tundelca.door(last.port)].ends

        judge(ends(look(0.0, 100, 0)) == (None, None), "one look")
        judge(ends(look(shares.FIRST - 1, 200, 10)) == (None, None), "too soon")
        sight = look(100.0, 200, 1_000)
        judge(ends(sight) == (165_364.0, 104_348.0), f"{ends(sight)}")
        table = "\n".join(status.page(Terminal(open(os.devnull, "w", encoding="utf-8")), sight, 100, 100.0, False))
        judge("165,364, 46 hours" in table and "1,043,480, 29 hours" in table, table)
        text = metrics.text(sight, 0.1).splitlines()
        judge('tundelca_left_places_seconds{owner="0"} 165364' in text, "\n".join(text))
        judge(f'tundelca_left_acts_seconds{{port="{last.port}"}} 104348' in text, "\n".join(text))
        for now in range(110, 1_000, 10):
            sight = look(float(now), 200 + now - 100, 1_000)
        judge(ends(sight)[1] is None, "it says when acts end, of which there were none in ten minutes")
        judge(abs(ends(sight)[0] - (165_564 - 1_090)) < 1, f"{ends(sight)}")
        judge(ends(look(1_001.0, 1_100, 500))[1] is None, "acts of before it began again count")
        cluster.shares = [1_200, 1_200, 0, 0]
        told = [found.text for found in look(1_010.0, 1_110, 500).spent()]
        due = "node 0 has used 92 % of its share: 90 of 1,200 places are left"
        judge(told == [f"{due}, for 90 seconds at the last ten minutes' rate"], f"{told}")
    return "in days, hours and seconds"


def holdings_have_places():
    """An owner's roles hold more than it has places: `begin-anew` tells it before anything stops or is written."""
    each = PLACES[4, 2]
    with Cluster("", NODES, MAY_LIE, roles=[*ROLES, (4, 0)], running=()) as cluster, cluster.play() as played:
        new, kept = (os.path.join(cluster.folder.name, name) for name in ("new", "kept"))
        for more, due in ((0, READY), (1, BEHIND)):
            pairs = {2: list(range(each - 7 + more)), 4: list(range(7))}
            for node in played.nodes:
                node.on_assigned_users = lambda asked: {"at": 1, "users": pairs.get(asked["role"], [])}
            said = f"node 0's roles hold {each + more:,} pairs, and it has {each:,} places"
            status, held, told = ended("begin-anew", "keep", *cluster.paths)
            judge((status, told.count("\n")) == (due, 1) and (said in told) == (due == BEHIND), f"{status}: {told}")
            with open(kept, "w", encoding="ascii") as file:
                file.write(held)
            status, paths, told = ended("begin-anew", "files", new, *cluster.paths, "--kept", kept)
            judge(status == due and os.path.exists(new) == (due == READY), f"{status}: {told}")
            if due == READY:
                shutil.rmtree(new)
                continue
            judge(said in told and paths == "", told)
            status, _, told = ended("begin-anew", "publish", kept, *cluster.paths)
            judge(status == BEHIND and said in told and not any(played.streams), told)
    return f"{each:,} pairs fit, and no more"


def trials():
    """Each trial by its name."""
    return [
        ("tools: shares", shares_are_told),
        ("tools: shares of nodes of before", nodes_of_before),
        ("tools: shares end", ends_are_told),
        ("tools: shares and begin-anew", holdings_have_places),
    ]
