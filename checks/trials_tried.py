"""`tundelca-ctl try` and `tundelca-ctl policy`, as somebody has them who comes for the first time. For deciding."""
import glob
import hashlib
import json
import os
import re
import shlex
import signal
import subprocess
import sys
import tempfile
import time
from typing import Any, List, Set

from cluster import Cluster
from gateways import COMMANDS, OWNERS, POLICY, expect_tornado
from paths import TOP
from runner import Case, judge, wait_until

CTL = os.path.join(TOP, "tools", "tundelca_ctl.py")
PATIENCE = 60
FIRST = 10.0  # seconds for the first answer, where processors are busy
LINES = 20  # that it prints, at most


def left() -> Set[str]:
    """What trials leave in the folder of temporary files."""
    return set(glob.glob(os.path.join(tempfile.gettempdir(), "tundelca-try-*")))


def alive(port: int) -> bool:
    """Whether somebody listens at a port."""
    import socket

    with socket.socket() as tried:
        return tried.connect_ex(("127.0.0.1", port)) == 0


def ports_in(text: str) -> List[int]:
    """The ports of the nodes and of the gateway, in what a trial prints."""
    nodes = re.search(r"client ports ([\d, ]+)", text)
    gateway = re.search(r"127\.0\.0\.1:(\d+)/access", text)
    judge(nodes is not None and gateway is not None, text)
    assert nodes is not None and gateway is not None
    return [*map(int, nodes.group(1).split(", ")), int(gateway.group(1))]


def once(given: Any) -> str:
    """It shows alice allowed and bob not, how long a revocation takes, and leaves nothing."""
    expect_tornado()
    before = left()
    ran = subprocess.run([sys.executable, CTL, "try", "--once", "--program", given.program("tundelca")],
                         capture_output=True, text=True, timeout=PATIENCE)
    judge(ran.returncode == 0 and not ran.stderr, f"status {ran.returncode}: {ran.stderr}")
    lines = ran.stdout.splitlines()
    answers = [json.loads(line) for line in lines if line.startswith("    {")]
    judge([one["decision"] for one in answers] == [True, False] and len(lines) <= LINES, ran.stdout)
    judge(answers[0]["context"]["role"] == "editor" and answers[1]["context"]["reason"] == "N4 NoneAssigned",
          ran.stdout)
    took = [float(found) for found in re.findall(r"after ([\d.]+) s$", ran.stdout, re.MULTILINE)]
    revoked = re.search(r"after (\d+) ms, and a yes (\d+) ms", ran.stdout)
    judge(len(took) == 1 and took[0] <= FIRST and revoked is not None, ran.stdout)
    judge(left() == before and not any(map(alive, ports_in(ran.stdout))), "something is left")
    assert revoked is not None
    return f"first answer after {took[0]} s, a revocation after {revoked.group(1)} ms, {len(lines)} lines"


class Standing:
    """A trial that stands, and what it printed."""

    def __init__(self, program: str) -> None:
        self.process = subprocess.Popen([sys.executable, CTL, "try", "--program", program], stdout=subprocess.PIPE,
                                        text=True, start_new_session=True)
        self.text = ""
        assert self.process.stdout is not None
        for line in self.process.stdout:
            self.text += line
            if line.startswith("it stands"):
                break
        judge("it stands" in self.text, f"it doesn't stand: {self.text}")

    def end(self, number: int) -> int:
        """Ends the program alone, by a signal. Its status."""
        self.process.send_signal(number)
        status = self.process.wait(PATIENCE)
        assert self.process.stdout is not None
        self.process.stdout.close()
        return status


def ended(given: Any) -> str:
    """An interrupt ends all and leaves nothing; one that is killed takes its children along. Its lines can be run."""
    expect_tornado()
    before, program = left(), given.program("tundelca")
    for number, due in [(signal.SIGINT, 0), (signal.SIGTERM, 1), (signal.SIGKILL, -9)]:
        trial = Standing(program)
        ports = ports_in(trial.text)
        judge(all(map(alive, ports)), "it doesn't listen")
        if number == signal.SIGINT:
            lines_run(trial.text)
        judge(trial.end(number) == due, f"signal {number}: its status")
        wait_until(lambda: not any(map(alive, ports)), f"signal {number} takes its children along", 10)
        judge(number == signal.SIGKILL or left() == before, f"signal {number}: a folder is left")
    for folder in left() - before:
        judge(sorted(os.listdir(folder))[0] == "policy.json", f"{os.listdir(folder)}: keys are left")
        for name in os.listdir(folder):
            os.unlink(os.path.join(folder, name))
        os.rmdir(folder)
    return "by an interrupt, by SIGTERM, killed"


def lines_run(text: str) -> None:
    """The lines that it prints do what they say."""
    for line in text.splitlines():
        words = shlex.split(line, comments=True)
        if words[:1] == ["curl"]:
            ran = subprocess.run(["curl", "-s", *words[1:]], capture_output=True, text=True, timeout=PATIENCE)
            judge(ran.returncode == 0 and ("decision" in ran.stdout or ran.stdout == "200\n"), f"{line}: {ran.stdout}")
        elif words[:1] == ["python3"]:
            ran = subprocess.run([sys.executable, *words[1:]], capture_output=True, text=True, timeout=PATIENCE)
            judge(ran.returncode in (0, 1) and ran.stdout, f"{line}: {ran.stdout} {ran.stderr}")


def without_tornado(_: Any) -> str:
    """Where there is no tornado, the gateway and a trial say what is missing, in a line."""
    with tempfile.TemporaryDirectory(prefix="tundelca-") as folder:
        path = os.path.join(folder, "policy.json")
        with open(path, "w", encoding="ascii") as file:
            json.dump(POLICY, file)
        os.chmod(path, 0o600)
        ran = subprocess.run([sys.executable, "-S", os.path.join(TOP, "tools", "tundelca_gateway.py"), "7400", path],
                             capture_output=True, text=True, timeout=PATIENCE)
    judge(ran.returncode == 3 and "apt-get install python3-tornado" in ran.stderr and len(ran.stderr.splitlines()) == 1,
          f"{ran.returncode}: {ran.stderr}")
    return ran.stderr.strip()


def ctl(*words: Any, due: int = 0) -> str:
    """What `tundelca-ctl policy` prints."""
    ran = subprocess.run([sys.executable, CTL, "policy", *map(str, words)], capture_output=True, text=True,
                         timeout=PATIENCE)
    judge(ran.returncode == due, f"policy {words}: status {ran.returncode}, {ran.stdout} {ran.stderr}")
    return ran.stdout + ran.stderr


def tables(_: Any) -> str:
    """What it tells of a policy file, and a token."""
    with tempfile.TemporaryDirectory(prefix="tundelca-") as folder:
        path = os.path.join(folder, "policy.json")
        with open(path, "w", encoding="ascii") as file:
            json.dump(POLICY, file)
        os.chmod(path, 0o644)
        told = ctl(path)
        for due in ("next free number 10", "next free action at owner 0: 7", "next free action at owner 1: 8",
                    "7  is alice",
                    "from 100 to 199 is itself", "caller shop: 2 tokens", "GET /records/{id} is to read record"):
            judge(due in told, f"{due} is missing: {told}")
        found = re.search(r"^fingerprint ([0-9a-f]{16}),", told)
        judge(found is not None, told)
        judge("no: unknown subject" in ctl(path, "why", "user", "dave", "read", "record", 9, due=1), "dave")
        judge("operation 5" in ctl(path, "why", "user", "alice", "read", "record", 9), "numbers without a node")
        for words in (["why"], ["fly"], ["why", "user", "alice", "read", "record"]):
            ctl(path, *words, due=3)
        token, digest = re.findall(r"(?m)^\w+ +(\S+)$", ctl(path, "token"))
        judge(hashlib.sha256(token.encode()).hexdigest() == digest, "a token's digest")
        with open(path, "w", encoding="ascii") as file:
            json.dump({**POLICY, "more": 1}, file)
        judge(": more: no such member" in ctl(path, due=3), "a wrong file")
    return "tables, tokens, a wrong file"


def why(given: Any) -> str:
    """What it says why somebody may, or may not, at nodes: what it says would allow it does."""
    with tempfile.TemporaryDirectory(prefix="tundelca-") as folder, Cluster(
            given.program("tundelca"), 4, 1, roles=list(OWNERS.items()), waits=True) as cluster:
        path = os.path.join(folder, "policy.json")
        with open(path, "w", encoding="ascii") as file:
            json.dump(POLICY, file)
        os.chmod(path, 0o600)
        for owner in (0, 1):
            with cluster.client(owner) as node:
                for command in COMMANDS:
                    if OWNERS[command["role"]] == owner:
                        node.ask(**command)
        cluster.reach_all(0, 5)
        cluster.reach_all(1, 2)
        counts = {0: 5, 1: 2}
        asked = ["why", "user", "alice", "read", "record", 9, "--node", cluster.clients[2]]
        judge("yes, in role 2 (editor)" in ctl(path, *asked), "alice")
        for who, action, kind, thing in [("bob", "read", "record", "9"), ("bob", "print", "page", "news"),
                                         ("alice", "print", "page", "news"), ("120", "write", "record", "3")]:
            words = ["why", "employee" if who == "120" else "user", who, action, kind, thing, "--node",
                     cluster.paths[2]]
            told = ctl(path, *words, due=1)
            for line in re.findall(r"tundelca-ctl ask NODE (.*)", told):
                owner = int(re.findall(r"said at node (\d)", told)[0])
                with cluster.client(owner) as node:
                    op, *members = line.split()
                    role = next(role for role, its in OWNERS.items() if its == owner)
                    node.ask(op, **{name: int(value.replace("ROLE", str(role))) for name, value in (
                        member.split("=") for member in members)})
                counts[owner] += 1
                cluster.reach_all(owner, counts[owner])
            judge("yes, in role" in ctl(path, *words), f"{who} {action} {kind}: {told}")
        for me in (0, 1):
            cluster.kill(me)
        wait_until(lambda: subprocess.run([sys.executable, CTL, "policy", path, *map(str, asked)],
                                          capture_output=True, timeout=PATIENCE).returncode == 2,
                                          "a deaf node: no decision")
    return "a yes, and four noes that become one"


def cases(given: Any) -> List[Case]:
    return [Case("try --once", lambda: once(given)), Case("try, ended", lambda: ended(given)),
            Case("without tornado", lambda: without_tornado(given)), Case("policy", lambda: tables(given)),
            Case("policy why", lambda: why(given))]
