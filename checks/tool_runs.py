"""Runs tools/tundelca_ctl.py beside nodes, played or real. For checks/tools_tried.py and what belongs to it."""
import contextlib
import io
import os
import signal
import subprocess
import sys
import tempfile
import traceback
import urllib.error
import urllib.request

from cluster import TOP, Cluster, tundelca
from runner import Failed, judge
import tundelca_ctl

TOOL = [sys.executable, os.path.join(TOP, "tools", "tundelca_ctl.py")]
PATIENCE = 60  # seconds, for a run of the tool
NODES, MAY_LIE = 4, 1
ROLES = [(2, 0), (3, 1)]
READY, BEHIND, AWAY, WRONG, REFUSED = range(5)  # exit statuses


def tool(*words, status=0):
    """What the tool prints, which has to end with this status; it tells a line of wrong words, of `keep` too."""
    came, out, told = ended(*words)
    said = f"{words} ended with status {came}: {out[-400:]} {told[-400:]}"
    judge(came == status, said)
    tells = "keep" in words[1:2] if status == READY else status in (AWAY, WRONG, REFUSED) and not out
    judge(told.count("\n") == (1 if tells else 0), said)
    return out if status != WRONG else told


def ended(*words):
    """The status of the tool, what it prints and what it tells; None and a traceback where it ends by itself.

    It runs in this process, which takes a hundredth of the time that a process of its own would take to start.
    """
    out, told = io.StringIO(), io.StringIO()
    with contextlib.redirect_stdout(out), contextlib.redirect_stderr(told), alarm(PATIENCE):
        try:
            status = tundelca_ctl.main(list(map(str, words)))
        except SystemExit as end:
            status = end.code
        except Exception:  # as a shell would see it
            status = None
            traceback.print_exc()
    return status, out.getvalue(), told.getvalue()


@contextlib.contextmanager
def alarm(seconds):
    """The block fails after so many seconds."""

    def ring(*_):
        raise Failed(f"not done in {seconds} s")

    signal.signal(signal.SIGALRM, ring)
    signal.alarm(seconds)
    try:
        yield
    finally:
        signal.alarm(0)


def process(*words):
    """The tool as a process of its own: its status, and what it printed and told."""
    ran = subprocess.run([*TOOL, *map(str, words)], capture_output=True, text=True, timeout=PATIENCE)
    return ran.returncode, ran.stdout, ran.stderr


@contextlib.contextmanager
def serving(*words):
    """The tool at work until the end of the block, and the address that it prints first.

    It heeds an interrupt, also where the trials run behind a shell's `&`, which has programs ignore it.
    """
    ran = subprocess.Popen([*TOOL, *map(str, words)], stdout=subprocess.PIPE, text=True,
                           preexec_fn=lambda: signal.signal(signal.SIGINT, signal.default_int_handler))
    try:
        yield ran.stdout.readline().strip()
        ran.send_signal(signal.SIGINT)
        judge(ran.wait(PATIENCE) == 130, f"{words}: status {ran.returncode} at an interrupt")
    finally:
        ran.kill()
        ran.wait()
        ran.stdout.close()


def fetch(address, headers=(), method="GET"):
    """The status, the headers and the text of a page."""
    request = urllib.request.Request(address, headers=dict(headers), method=method)
    try:
        with urllib.request.urlopen(request, timeout=PATIENCE) as answer:
            return answer.status, answer.headers, answer.read().decode()
    except urllib.error.HTTPError as error:
        return error.code, error.headers, error.read().decode()


@contextlib.contextmanager
def playing():
    """A played cluster with some commands, and its ports."""
    with Cluster("", NODES, MAY_LIE, roles=ROLES, running=()) as nodes:
        cluster = nodes.play()
        for user in range(300):
            cluster.nodes[0].publish({"op": "assign", "user": user, "role": 2})
        cluster.nodes[1].publish({"op": "grant", "role": 3, "operation": 5, "object": 9})
        yield cluster, nodes.clients


@contextlib.contextmanager
def made_by_tool(program, has_journals):
    """A cluster whose files the tool has made, and a folder for more."""
    with tempfile.TemporaryDirectory(prefix="tundelca-") as folder:
        ports = tundelca.free_ports(2 * NODES)
        words = ["files", os.path.join(folder, "old"), "--nodes", *ports[:NODES], "--clients", *ports[NODES:]]
        paths = tool(*words, "--roles", *(f"{role}={owner}" for role, owner in ROLES), "--may-lie", MAY_LIE).split()
        with Cluster(program, may_lie=MAY_LIE, paths=paths, has_journals=has_journals, waits=True) as nodes:
            yield folder, nodes
