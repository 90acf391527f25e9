"""The doors of tools/tundelca.py: how a node is named, who may listen at a socket, and what goes out once more.

On nodes that a script plays (played.py); cases of checks/doors.py. Other accounts are numbers: none is made.
"""
import contextlib
import json
import os
import signal
import subprocess
import sys
import tempfile
import threading
import time

import gateways
import tool_runs
from cluster import TOP, Cluster, tundelca
from played import Played
from runner import Failed, Skipped, judge, wait_until
from tool_runs import AWAY, MAY_LIE, NODES, PATIENCE, REFUSED, ROLES, WRONG, fetch, serving, tool

STRANGER = 61_234  # an account of nobody
COMMANDS = 40  # that node 0 has published
ONCE = ("assign", "grant", "clear", "open", "activate", "close", "again")  # what never goes out a second time


@contextlib.contextmanager
def sockets():
    """A folder with a cluster file for each node, as /etc/tundelca has them, and where the nodes' sockets belong, as in
    /run/tundelca: the tool takes it for both. The folder, the sockets' paths and the files'."""
    before = tundelca.RUN, tundelca.ETC
    with tempfile.TemporaryDirectory(prefix="tundelca-") as folder:
        os.chmod(folder, 0o711)  # another account, which listens there, has to come to its socket
        ports = tundelca.free_ports(2 * NODES)
        made = tundelca.cluster_files(folder, ROLES, ports[:NODES], ports[NODES:], MAY_LIE)
        files = [os.path.join(folder, f"{me}.json") for me in range(NODES)]
        for old, new in zip(made, files):
            os.rename(old, new)
        paths = [os.path.join(folder, str(me), "node.socket") for me in range(NODES)]
        for path in paths:
            os.mkdir(os.path.dirname(path), 0o750)
        tundelca.RUN = tundelca.ETC = folder
        try:
            yield folder, paths, files
        finally:
            tundelca.RUN, tundelca.ETC = before


def filled(paths):
    """A played cluster at these sockets, with some commands."""
    cluster = Played(paths, dict(ROLES))
    for user in range(COMMANDS):
        cluster.nodes[0].publish({"op": "assign", "user": user, "role": 2})
    return cluster


def nodes_are_named():
    """A port, a socket's path, @NAME, a cluster file: each command finds the node; what names none is told."""
    with sockets() as (folder, paths, files), filled(paths) as cluster:
        for words in (paths, [f"@{me}" for me in range(NODES)], files):
            table = tool("status", *words)
            judge("4 of 4 nodes answer" in table and " @3 " in table, table)
        cluster.nodes[3].end()
        table = tool("status", *files, status=AWAY)  # so its file stands for its port
        judge("no node answers at port" in table, table)
        cluster.nodes[3] = type(cluster.nodes[2])(cluster, 3, paths[3])
        for word in ("@", "@..", "@a/b", "@/etc", "65536", "0", "node.socket", folder):
            tool("status", word, status=WRONG)
        for path in (os.path.join(folder, "none"), "/" + "s" * 107):
            tool("status", path, status=AWAY)
        every_command(folder, paths, files)
    return "in four ways, by each command"


def every_command(folder, paths, files):
    """Each command asks nodes at sockets, and names them so."""
    kept = os.path.join(folder, "kept")
    with open(kept, "w", encoding="ascii") as file:
        file.write(tool("begin-anew", "keep", *files))
    judge("node 0: 40 commands" in tool("begin-anew", "publish", kept, *files), "not published")
    judge(len(tool("stream", 0, paths[1]).splitlines()) == 2 * COMMANDS, "another stream")
    judge(f"the same for {2 * COMMANDS} commands" in tool("diff", *paths[:2]), "they differ")
    judge(json.loads(tool("ask", paths[2], "reach", "owner=0")) == {"reach": 2 * COMMANDS}, "another reach")
    judge("node 0 at socket " + paths[0] in tool("health", paths[0], "--of", *paths[1:]), "not ready")
    judge(tool("sessions", paths[0]) == "0 sessions open\n", "sessions")
    judge(f'tundelca_up{{socket="{paths[0]}"}} 1' in tool("metrics", *paths).splitlines(), "no metric")
    rows = [json.loads(row) for row in tool("status", "--json", *paths).splitlines()]
    judge([row["socket"] for row in rows] == paths and "port" not in rows[0], str(rows[0]))
    with serving("board", "--port", 0, "--every", "0.1", *paths) as address:
        shown = json.loads(fetch(address + "state.json")[2])["now"]["nodes"]
        judge([node["where"] for node in shown] == [f"socket {path}" for path in paths], str(shown[0]))
    with open(kept, "w", encoding="ascii") as file:
        file.write('{"op":"assign","user":1,"role":2}\n{"op":"assign","user":1,"role":3}\n')
    judge(tool("publish", kept, *files) == "node 0: 1 command\nnode 1: 1 command\n", "not published")


# Another account listens.


@contextlib.contextmanager
def played_by(account, paths, heard):
    """A process of this account plays the nodes at these paths until the end of the block; `heard` is a file for each
    line that it hears."""
    for path in paths:
        os.chown(os.path.dirname(path), account, account)
    ready, told = os.pipe()
    child = os.fork()
    if child == 0:
        with contextlib.suppress(BaseException), open(heard, "ab", 0) as file:
            os.setgroups([])
            os.setgid(account)
            os.setuid(account)
            for node in filled(paths).nodes:
                node.changed = {"f": MAY_LIE}
                node.answer = lambda line, answer=node.answer: file.write(line) and answer(line)
            os.write(told, b"!")
            time.sleep(10 * PATIENCE)
        os._exit(1)
    os.close(told)
    try:
        judge(os.read(ready, 1) == b"!", "nobody plays")
        yield
    finally:
        os.close(ready)
        os.kill(child, signal.SIGKILL)
        os.waitpid(child, 0)


def needs_root():
    if os.geteuid() != 0:
        raise Skipped("only root may act for other accounts")


def asking(folder, paths, files):
    """The words of each command that asks a node."""
    for name, text in (("commands", '{"op":"assign","user":1,"role":2}\n'),
                       ("kept", '{"2":{"users":[1],"permissions":[]}}')):
        with open(os.path.join(folder, name), "w", encoding="ascii") as file:
            file.write(text)
    return [["status", *paths], ["health", paths[0]], ["metrics", *paths], ["ask", paths[0], "reach", "owner=0"],
            ["stream", 0, paths[0]], ["diff", *paths[:2]], ["sessions", paths[0]], ["stop", paths[0]],
            ["publish", os.path.join(folder, "commands"), *files], ["begin-anew", "keep", *files],
            ["begin-anew", "publish", os.path.join(folder, "kept"), *files]]


def strangers_are_refused():
    """A node of another account is refused by each command and by the gateway, before a line goes out; --owner allows
    it. A client that was connected before finds out when it connects anew."""
    needs_root()
    with sockets() as (folder, paths, files):
        heard = os.path.join(folder, "heard")
        words = asking(folder, paths, files)
        with played_by(STRANGER, paths, heard):
            for row in words:
                came = tool_runs.ended(*row)
                judge(came[0] == AWAY, f"{row}: {came}")
                shown = came[1] + came[2]
                judge(row[0] == "metrics" or f"account {STRANGER}" in shown and "root or tundelca" in shown, shown)
            with serving("board", "--port", 0, "--every", "0.1", *paths) as address:
                state = json.loads(fetch(address + "state.json")[2])["now"]
                judge([node["state"] for node in state["nodes"]] == ["away"] * NODES, str(state)[:300])
            if gateways.has_tornado():
                with gateways.Gateway(paths[0]) as gateway:
                    gateway.wait("/health/live")
                    status, answer = gateway.ask("POST", gateways.EVALUATION, gateways.evaluation())
                    judge(status == 503 and f"account {STRANGER}" in str(answer), f"the gateway says {status} {answer}")
            judge(os.path.getsize(heard) == 0, "something went out to a stranger")
            for row in words[:-1]:
                row = [*row, "--account" if row[0] in ("diff", "stream") else "--owner", STRANGER]
                judge(row[0] == "stop" or tool_runs.ended(*row)[0] == 0, f"{row}: {tool_runs.ended(*row)}")
            tool("status", *paths, "--owner", "no-such-account", status=WRONG)
            if gateways.has_tornado():
                with gateways.Gateway(paths[0], None, "--owner", str(STRANGER)) as gateway:
                    gateway.wait()
        taken_over(paths[0], heard)
    last = "the gateway" if gateways.has_tornado() else "NO GATEWAY WAS TRIED: there is no python3-tornado"
    return f"{len(words)} commands, the board, {last}"


def taken_over(path, heard):
    """A stranger takes the place of a node: who was connected to that finds out, and says nothing to him."""
    os.unlink(path)
    with Played([path], dict(ROLES)) as cluster, tundelca.Client(path, 5.0) as client:
        judge(client.reach(0) == 0, "the node doesn't answer")
        cluster.nodes[0].end()
        before = os.path.getsize(heard)
        with played_by(STRANGER, [path], heard):
            try:
                raise Failed(f"a stranger is believed: {client.reach(0)}")
            except tundelca.Stranger:
                pass
        judge(os.path.getsize(heard) == before, "something went out to a stranger")


# What goes out once more.


def questions_go_again():
    """Where a kept connection has ended a question goes out once more, also one of many; what was asked once already,
    or is no question, doesn't."""
    with sockets() as (_, paths, files), filled(paths) as cluster:
        ports = filled([tundelca.read_cluster(file)["client"] for file in files])
        with ports:
            for node in (cluster.nodes[1], ports.nodes[1]):
                one_goes_again(node)
                many_go_again(node)
                none_goes_twice(node)
                closed_clients_stay_closed(node)
    return "at a socket and at a port"


def lines_of(node):
    """What a node hears from now on."""
    lines, answer = [], type(node).answer

    def hear(line):
        lines.append(json.loads(line))
        return answer(node, line)

    node.answer = hear
    return lines


def one_goes_again(node):
    """One question after the end of a kept connection, whoever ended it and whenever."""
    lines = lines_of(node)
    with tundelca.Client(node.port, 5.0) as client:
        for _ in range(3):
            judge(client.reach(0) == COMMANDS, "another reach")
            node.hang_up()
        judge(client.ask("status")["reaches"][0] == COMMANDS, "another status")
        for op in ONCE:
            node.hang_up()
            before = len(lines)
            try:
                raise Failed(f"{op} came through: {client.ask(op, user=7, role=2, session=1, owner=0, place=0)}")
            except tundelca.Ended:
                judge(len(lines) == before, f"{op} went out once more")
            client = tundelca.Client(node.port, 5.0)
            client.reach(0)
        client.close()


def many_go_again(node):
    """Many questions, amid which the connection ends: each has its answer, in their order."""
    lines = lines_of(node)
    hear, cut = node.answer, [7]

    def cutting(line):
        cut[0] -= 1
        if cut[0] == 0:
            node.hang_up()
            return b""
        return hear(line)

    node.answer = cutting
    with tundelca.Client(node.port, 5.0) as client:
        judge(client.reach(0) == COMMANDS, "another reach")
        came = client.commands(0, range(COMMANDS), time.monotonic() + 5)
        judge([command["user"] for command in came] == list(range(COMMANDS)), f"in another order: {came}")
        judge(len(lines) < 2 * COMMANDS, f"{len(lines)} lines")
    del node.answer


def none_goes_twice(node):
    """A node that answers one line of a connection: a question goes out twice at most, and many come to their end."""
    lines, answer = lines_of(node), type(node).answer

    def once(line):
        lines.append(line)
        if len(lines) > 1:
            node.hang_up()
            return b""
        return answer(node, line)

    node.answer = once
    with tundelca.Client(node.port, 5.0) as client:
        client.reach(0)
        try:
            raise Failed(f"answered: {client.reach(0)}")
        except tundelca.Ended:
            judge(len(lines) == 3, f"{len(lines)} lines")
        try:
            raise Failed(f"asked by a closed client: {client.reach(0)}")
        except tundelca.Unreachable:
            judge(len(lines) == 3, f"{len(lines)} lines")
    del node.answer


def closed_clients_stay_closed(node):
    """A client that somebody has closed is asked no more, also where another thread waits just then."""
    client, told = tundelca.Client(node.port, PATIENCE), []
    client.reach(0)
    node.mute = True

    def ask():
        try:
            told.append(client.reach(0))
        except tundelca.Unreachable as fault:
            told.append(fault)

    thread = threading.Thread(target=ask)
    thread.start()
    time.sleep(0.1)
    client.close()
    thread.join(PATIENCE)
    node.mute = False
    judge(isinstance(told[0], tundelca.Unreachable) and client.socket.fileno() == -1, str(told))


# Stop.

PLAYS = """
import os, sys, time
sys.path[:0] = [{checks!r}]
import paths
from played import Played
import tundelca
cluster = Played([sys.argv[1]], {{2: 0}})
node = cluster.nodes[0]
how, late = sys.argv[2], float(sys.argv[3])

def on_stop(_):
    import threading
    def end():
        if how != "deaf":
            node.server.socket.close()
        if how in ("clean", "lost"):
            os.unlink(sys.argv[1])
        time.sleep(late)
        os._exit(0)
    if how == "lost":
        node.hang_up()
    if how != "stays":
        threading.Thread(target=end).start()
    return {{"stopped": True}}

node.on_stop = on_stop
print("plays", flush=True)
time.sleep(60)
"""


@contextlib.contextmanager
def stoppable(path, how, late=0.3):
    """A process that plays a node, and ends so long after it was stopped."""
    code = PLAYS.format(checks=os.path.join(TOP, "checks"))
    with subprocess.Popen([sys.executable, "-c", code, path, how, str(late)], stdout=subprocess.PIPE) as ran:
        try:
            judge(ran.stdout.readline() == b"plays\n", "it doesn't play")
            yield ran
        finally:
            ran.kill()


def stop_waits():
    """`stop` ends when the node has ended, however it ends, and says so where it doesn't."""
    with sockets() as (_, paths, _):
        for how in ("clean", "deaf", "lost"):
            with stoppable(paths[0], how) as ran:
                tool("stop", paths[0])
                judge(ran.poll() == 0, f"{how}: the process is there still")
            with contextlib.suppress(OSError):
                os.unlink(paths[0])
        with stoppable(paths[0], "stays"):
            begun = time.monotonic()
            tool("stop", paths[0], "--patience", "0.5", status=AWAY)
            judge(0.4 < time.monotonic() - begun < 3, "not in its time")
        tool("stop", paths[0], status=AWAY)  # a dead socket
        tool("stop", paths[1], status=AWAY)
        tool("stop", "@none/", status=WRONG)
    return "in three ways, and one that stays"


def trials():
    """Each trial by its name."""
    return [("tools: nodes are named", nodes_are_named), ("tools: strangers", strangers_are_refused),
            ("tools: once more", questions_go_again), ("tools: stop", stop_waits)]
