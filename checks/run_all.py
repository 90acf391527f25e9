#!/usr/bin/env python3
"""Runs every example on the built programs and judges what comes: checks/run_all.py [CHECKOUT] [--only WORD]

The scripts in examples/lab and examples/pipe are compared with their outputs, byte for byte; the others are run
against four nodes on this machine. CHECKOUT is where role_lab, role_daemon and tundelca were built, or these programs;
this checkout if it is left out. Ends by itself, in a few minutes. four_hosts.py needs root, iproute2 and network
namespaces: where there are none, its line says that it was skipped.
"""
import contextlib
import functools
import itertools
import json
import os
import re
import shutil
import signal
import subprocess
import sys
import tempfile

import clients_page
import first_bytes
import gateways
import loss_cases
import operator_cases
import pipe_cases
import runner
import tools_tried
from cluster import ROLE, TOP, Cluster, tundelca
from runner import Case, Skipped, judge

EXAMPLES = os.path.join(TOP, "examples")
PATIENCE = 60  # seconds, for each program that an example starts
SOON = 10  # seconds in which a node that is joined again lacks nothing
OWNER, NODES, MAY_LIE = 0, 4, 1
COMMANDS = 600  # more than wait for a node that is cut off
PAIRS = 20_000  # that are kept and published anew
BAD_SCRIPT = 3  # the status
MOST_THREADS = 20  # of a node of four, with its peers and a client


def python(name, *words):
    """What an example prints."""
    command = [sys.executable, os.path.join(EXAMPLES, name), *map(str, words)]
    ran = subprocess.run(command, capture_output=True, text=True, timeout=PATIENCE)
    judge(ran.returncode == 0, f"{name} ended with status {ran.returncode}: {ran.stderr.strip()}")
    return ran.stdout


def scripts(folder, program):
    """Each script of the folder gives its output; a bad one, which has a file in stderr/, also what is told of it."""
    names = sorted(name for name in os.listdir(os.path.join(EXAMPLES, folder)) if not name.endswith(".stdout"))
    judge(names, f"{folder} is empty")
    for name in names:
        path, told_of = os.path.join(EXAMPLES, folder, name), os.path.join(EXAMPLES, "stderr", folder, name)
        with open(path, "rb") as script, open(path + ".stdout", "rb") as file:
            due = file.read()
            ran = subprocess.run([program], stdin=script, capture_output=True, timeout=PATIENCE)
        status, told = 0, b""
        if os.path.exists(told_of):
            status = BAD_SCRIPT
            with open(told_of, "rb") as file:
                told = file.read()
        judge(ran.returncode == status, f"{folder}/{name}: status {ran.returncode}")
        judge(ran.stderr == told, f"{folder}/{name}: due {told!r}, told {ran.stderr!r}")
        for number, (came, wanted) in enumerate(zip(ran.stdout.split(b"\n"), due.split(b"\n")), 1):
            judge(came == wanted, f"{folder}/{name}, line {number}: due {wanted!r}, came {came!r}")
        judge(ran.stdout == due, f"{folder}/{name}: another length")
    return f"{len(names)} scripts"


def transcripts(lab, daemon):
    """Each transcript of README.md, a line, its answer and what is said of it side by side, is what programs give."""
    with open(os.path.join(TOP, "README.md"), encoding="utf-8") as file:
        blocks = re.findall(r"```text\n(.*?)```", file.read(), re.DOTALL)
    judge(blocks, "README.md has no transcripts")
    for block in blocks:
        rows = [re.split(r"  +", line) for line in block.splitlines()]
        program = daemon if block.startswith("{") else lab
        given = "".join(row[0] + "\n" for row in rows)
        due = "".join(row[1] + "\n" for row in rows if len(row) > 1)
        ran = subprocess.run([program], input=given, capture_output=True, text=True, timeout=PATIENCE)
        judge(ran.stdout == due and ran.returncode == 0, f"README.md: due {due!r}, came {ran.stdout!r}")
    return f"{len(blocks)} transcripts"


def page(program):
    """The commands of docs/OPERATIONS.md, on free ports and in a folder of their own, print what stands below them."""
    with open(os.path.join(TOP, "docs", "OPERATIONS.md"), encoding="utf-8") as file:
        commands, due = re.search(r"```sh\n(python3 tools/tundelca.py files.*?)```\n+```text\n(.*?)```",
                                  file.read(), re.DOTALL).groups()
    if shutil.which("curl") is None or not gateways.has_tornado():
        commands = re.sub(r"(?s)cat > /tmp/cluster/policy.json.*kill \$gateway\n", "", commands)
        due = re.sub(r"(?m)^..decision.*\n", "", due)
    ports = [str(port) for port in tundelca.free_ports(9)]
    with tempfile.TemporaryDirectory(prefix="tundelca-") as folder:
        for old, new in [("/tmp/cluster", folder), ("crates/tundelca/out/tundelca", os.path.abspath(program)),
                         ("sleep 1", "sleep 2"), *zip("7300 7301 7302 7303 7400 7401 7402 7403 7500".split(), ports)]:
            commands, due = commands.replace(old, new), due.replace(old, new)
        ran = subprocess.Popen(["bash", "-c", commands], cwd=TOP, stdout=subprocess.PIPE,
                               stderr=subprocess.PIPE, text=True, start_new_session=True)
        try:
            came, told = ran.communicate(timeout=PATIENCE)
        finally:
            with contextlib.suppress(ProcessLookupError):  # what was left running
                os.killpg(ran.pid, signal.SIGKILL)
    came, due = (re.sub(r'"reach": \d', '"reach": R', re.sub(" +", " ", text)) for text in (came, due))
    judge(came == due, f"docs/OPERATIONS.md: due {due!r}, came {came!r} {told!r}")
    return f"{len(due.splitlines())} lines"


def most_liars(program):
    """A third of 128 nodes lie in every stream, and each answer is the one that is due."""
    return python("most_liars.py", program).strip()


def four_nodes(program, left=3):
    """The decisions in their order, and that those that were left stopped well: with journals all four."""
    text = python("four_nodes.py", program)
    decisions = re.findall(r'"allow": (true|false), "at": \d+(?:, "(?:rule|role)": "?(\w+)"?)?', text)
    judge(decisions == [("false", "N3"), ("true", "2"), ("false", "N4")], f"decisions {decisions}")
    judge(text.endswith(f"statuses {[0] * left}\n"), text[-200:])
    return f"three decisions, {left} statuses"


def hosts_can_be_made():
    """Whether this machine lets a network namespace be made, with a bridge and a cable in it."""
    if os.geteuid() != 0 or shutil.which("ip") is None:
        return False
    host = f"tundelca-{os.getpid()}-probe"
    tried = [["netns", "add", host], ["-n", host, "link", "add", "probe0", "type", "bridge"],
             ["-n", host, "link", "add", "probe1", "type", "veth", "peer", "name", "probe2"]]
    try:
        return all(subprocess.run(["ip", *words], capture_output=True, timeout=PATIENCE).returncode == 0
                   for words in tried)
    finally:
        subprocess.run(["ip", "netns", "del", host], capture_output=True, timeout=PATIENCE)


def four_hosts(program):
    """A host that is cut off stays behind and answers its clients; joined again it lacks nothing. One that gets another
    address is found there."""
    if not hosts_can_be_made():
        raise Skipped("here is no root, no iproute2, or no network namespace")
    ran = subprocess.Popen([sys.executable, os.path.join(EXAMPLES, "four_hosts.py"), program], stdout=subprocess.PIPE,
                           stderr=subprocess.PIPE, text=True)
    try:
        text, told = ran.communicate(timeout=2 * PATIENCE)
    except subprocess.TimeoutExpired:
        ran.send_signal(signal.SIGINT)  # at which it takes the hosts down
        ran.communicate(timeout=PATIENCE)
        raise
    judge(ran.returncode == 0, f"four_hosts ended with status {ran.returncode}: {told.strip()}")
    events = ["all four nodes answer on their hosts", "all four reach 3", "node 0 is connected to all others",
              "host 3 is cut off", "hosts 0, 1 and 2 reach 8",
              'host 3 reaches 3, and still answers its clients: {"allow": false', "host 3 is joined again",
              "host 3 reaches 8", "host 1 has another address", "all four were killed and started again",
              "all four reach 12", "and host 1 is heard at its new address",
              f"stopped: {[{'stopped': True}] * NODES}"]
    lines = text.splitlines()
    judge(len(lines) == len(events), text)
    for line, due in zip(lines, events):
        judge(line.startswith(due), f"due {due!r}, came {line!r}")
    return "host 3 cut off, and joined again; host 1 at another address"


def thread_count(process):
    """How many threads the process has."""
    with open(f"/proc/{process.pid}/status", encoding="ascii") as file:
        return int(re.search(r"Threads:\s+(\d+)", file.read()).group(1))


def threads(program):
    """Each of four nodes has few threads at rest, and once all have spoken with one another."""
    if not os.path.exists("/proc/self/status"):
        raise Skipped("nobody says here how many threads there are")
    with Cluster(program, NODES, MAY_LIE, waits=True) as nodes:
        at_rest = [thread_count(process) for process in nodes.running.values()]
        with nodes.client(OWNER) as owner:
            owner.ask("assign", user=7, role=ROLE)
            nodes.reach_all(OWNER, 1)
            spoken = [thread_count(process) for process in nodes.running.values()]
        judge(max(at_rest + spoken) < MOST_THREADS, f"threads: {at_rest} at rest, {spoken} once all have spoken")
        statuses = [nodes.stop(me) for me in range(NODES)]
        judge(statuses == [0] * NODES, f"statuses {statuses}")
    return f"at most {max(at_rest)} at rest, {max(spoken)} once all have spoken"


class Cut(Cluster):
    """Four nodes, of which the last is reached, and reaches the others, through forward.py, which can be ended."""

    forwarder = None

    def __init__(self, program):
        super().__init__(program, NODES, MAY_LIE, running=())
        last, passed = NODES - 1, tundelca.free_ports(NODES)
        pairs = itertools.permutations(range(NODES), 2)
        self.route({(me, to): passed[to] for me, to in pairs if last in (me, to)})
        self.pairs = [f"{there}={tundelca.LOOPBACK}:{node}" for there, node in zip(passed, self.nodes)]
        try:
            self.join()
            for me in range(NODES):
                self.start(me)
            self.wait()
        except BaseException:
            self.end()
            raise

    def join(self):
        words = [sys.executable, os.path.join(EXAMPLES, "forward.py"), *self.pairs]
        self.forwarder = subprocess.Popen(words, stdout=subprocess.PIPE, text=True)
        judge(self.forwarder.stdout.readline() == "forwarding\n", "the forwarder ended")

    def cut(self):
        if self.forwarder is not None:
            self.forwarder.kill()
            self.forwarder.wait()
            self.forwarder.stdout.close()
            self.forwarder = None

    def end(self):
        self.cut()
        super().end()


def cut_and_caught_up(program):
    """A node that was cut off lacks commands, as watch.py shows; joined again it gets them from the others."""
    with Cut(program) as nodes, nodes.client(OWNER) as owner, nodes.client(NODES - 1) as last:
        owner.ask("assign", user=1, role=ROLE)
        last.wait_for_reach(OWNER, 1)
        nodes.cut()
        commands = [{"op": "assign", "user": user, "role": ROLE} for user in range(1, COMMANDS)]
        done = owner.publish(commands, OWNER, nodes.clients[1:], MAY_LIE)
        judge(done == tundelca.Published(COMMANDS - 1, COMMANDS, {nodes.clients[-1]: 1}), str(done))
        text = python("watch.py", *nodes.clients)
        judge(f"(-{COMMANDS - 1})" in text, text)
        nodes.join()
        last.wait_for_reach(OWNER, COMMANDS, SOON)
        judge("(-" not in python("watch.py", *nodes.clients), "a node is still behind")
    return f"{COMMANDS - 1} commands behind, and none"


def begun_anew(program):
    """Three of four nodes keep what the roles hold; the next cluster has it, under new keys and the next number."""
    with tempfile.TemporaryDirectory(prefix="tundelca-") as folder, \
            Cluster(program, NODES, MAY_LIE, 2, waits=True) as nodes:
        clients, kept = nodes.clients, os.path.join(folder, "kept.json")
        with nodes.client(OWNER) as owner, nodes.client(1) as other:
            assigns = [{"op": "assign", "user": user, "role": ROLE} for user in range(PAIRS)]
            owner.publish(assigns, OWNER, clients[1:], MAY_LIE)
            owner.ask("deassign", user=7, role=ROLE)
            other.ask("grant", role=3, operation=5, object=9)
        nodes.reach_all(OWNER, PAIRS + 1)
        nodes.reach_all(1, 1)
        with open(kept, "w", encoding="ascii") as file:
            file.write(python("begin_anew.py", "keep", *nodes.paths[1:]))
        for me in range(NODES):
            nodes.stop(me)
        new = python("begin_anew.py", "files", os.path.join(folder, "new"), *nodes.paths).split()
        with Cluster(program, paths=new, waits=True) as later:
            told = python("begin_anew.py", "publish", kept, *new)
            counts = [PAIRS - 1, 1, 0, 0]
            due = "".join(f"node {me}: {count:,} command{'' if count == 1 else 's'}\n"
                          for me, count in enumerate(counts))
            judge(told == due, told)
            later.reach_all(OWNER, PAIRS - 1)
            later.reach_all(1, 1)
            same = python("begin_anew.py", "keep", *new)
        with open(kept, encoding="ascii") as file:
            judge(same == file.read(), same)
    return f"{PAIRS} commands"


def first_cluster(program):
    """A cluster with a liar and a gateway: alice has the role, bob and mallory haven't, whatever node 3 says."""
    text = python("first_cluster.py", "--seconds", 0, "--first-port", 0, program)
    for node in range(3):
        judge(f"node {node}: role 2 is of the users [7]\n" in text, text)
        judge(f"node {node} ended with status 0\n" in text, text)
    answers = re.findall(r"^    (.*)$", text, re.MULTILINE)
    if "no gateway is shown" in text:
        return "a liar, and nobody believes it; NO GATEWAY WAS TRIED, since there is no tornado here"
    came = [json.loads(answer)["decision"] for answer in answers]
    judge(came == [True, False, False], text)
    return "a liar, and nobody believes it"


def cases(given):
    """Each example, and what else is tried of the built programs as their users have them."""
    lab, daemon, keeper = (functools.partial(given.program, name) for name in ("role_lab", "role_daemon", "tundelca"))
    return [
        Case("lab", lambda: scripts("lab", lab())),
        Case("most_liars.py", lambda: most_liars(lab())),
        Case("full_stream.py", lambda: python("full_stream.py", lab()).strip()),
        Case("pipe", lambda: scripts("pipe", daemon())),
        Case("README.md", lambda: transcripts(lab(), daemon())),
        Case("OPERATIONS.md", lambda: page(keeper())),
        Case("CLIENTS.md", lambda: clients_page.run(keeper())),
        Case("four_nodes.py", lambda: four_nodes(daemon())),
        Case("four_nodes.py, with journals", lambda: four_nodes(keeper(), NODES)),
        Case("four_hosts.py", lambda: four_hosts(keeper())),
        Case("threads", lambda: threads(daemon())),
        Case("forward.py, watch.py", lambda: cut_and_caught_up(daemon())),
        Case("begin_anew.py", lambda: begun_anew(daemon())),
        Case("first_cluster.py", lambda: first_cluster(keeper())),
        *operator_cases.cases(given),
        *loss_cases.cases(given),
        *first_bytes.cases(given),
        *pipe_cases.cases(given),
        *tools_tried.cases(given),
    ]


if __name__ == "__main__":
    runner.main("examples", __doc__, cases)
