#!/usr/bin/env python3
"""A cluster of four nodes, one of which lies, and a gateway before it: from source, without a proof, to be looked at.

    python3 examples/first_cluster.py [--seconds N] [--first-port PORT] [PROGRAM]

Nodes 0, 1 and 2 are `tundelca serve --in-memory`, each of which `rt try` compiles for itself, with checks and not for
speed: it proves nothing, and says so at the end. Where three processors are idle the three take as long as one,
two to five minutes. Such nodes are to be looked at: they deliver some commands a second. PROGRAM is a tundelca that was
proved and built, to take in its place.
Node 3 is liar.py. Node 0 publishes that user 7 has role 2 and what that role may do; the liar says otherwise. Then the
cluster stands for N seconds, or until Ctrl-C, to be tried by hand.
"""
import argparse
import contextlib
import hashlib
import json
import os
import shutil
import signal
import subprocess
import sys
import time

import built
import cluster
import gateways
import tundelca
from ctl.trial import Shown

CORRECT, LIAR, MAY_LIE = range(3), 3, 1
PORTS = 7_300  # of nodes; those for clients are 100 above, and the gateway's 200
ROLES = [(2, 0), (3, LIAR)]
COMMANDS = [{"op": "assign", "user": 7, "role": 2}, {"op": "grant", "role": 2, "operation": 5, "object": 9}]
TOKEN = "secret"
POLICY = {
    "subjects": {"user": {"alice": 7, "bob": 8, "mallory": 666}}, "roles": {"editor": 2},
    "types": {"record": {"owner": 0, "ids": [1, 1000], "actions": {"read": 5, "write": 6}}},
    "callers": {"you": [hashlib.sha256(TOKEN.encode()).hexdigest()]},
}
BUILD = 600  # seconds that building may take


class Ended(Exception):
    """What was started has ended, or doesn't come."""


class Cluster(cluster.Cluster):
    """The cluster, and the liar and the gateway beside it, each with a file of what it says."""

    def __init__(self, program, first, seconds):
        ports = [first + 100 * kind + node for kind in range(3) for node in range(4)]
        ports = ports if first else tundelca.free_ports(9)
        self.gateway, self.seconds, self.beside = ports[8], BUILD + seconds, {}
        self.is_tried = program is None
        super().__init__(program or "tundelca", 4, MAY_LIE, roles=ROLES, ports=(ports[:4], ports[4:8]), running=())

    def words(self, me, word="serve"):
        """`rt try` serves a node in the crate's folder, where it is given the cluster file by its name."""
        if not self.is_tried:
            return super().words(me, word)
        path = self.paths[me]
        given = ["--seconds", str(self.seconds), "--data", f"{os.path.basename(path)}={path}"]
        return ["rt", "try", *given, "--", word, "--cluster", os.path.basename(path), "--in-memory"]

    def settings(self, me):
        said = open(self.said(f"node {me}"), "wb")
        folder = os.path.join(built.TOP, "crates", "tundelca") if self.is_tried else self.folder.name
        return {"cwd": folder, "stdout": said, "stderr": said, "start_new_session": True}

    def said(self, name):
        return os.path.join(self.folder.name, name + ".said")

    def start_beside(self, name, *words):
        """Starts a program beside the nodes."""
        with open(self.said(name), "wb") as file:
            self.beside[name] = subprocess.Popen(
                list(map(str, words)), cwd=os.path.join(built.TOP, "examples"), stdin=subprocess.DEVNULL, stdout=file,
                stderr=file, start_new_session=True)

    def processes(self):
        """All that runs, by name."""
        return {**{f"node {me}": process for me, process in self.running.items()}, **self.beside}

    def wait_for(self, name, port, seconds):
        """Waits until somebody listens at the port."""
        over, process = time.monotonic() + seconds, self.processes()[name]
        while True:
            with contextlib.suppress(tundelca.Unreachable):
                return tundelca.Client(port).close()
            if process.poll() is not None or time.monotonic() > over:
                raise Ended(f"{name} doesn't come:\n{self.told(name)[-2_000:]}")
            time.sleep(0.2)

    def told(self, name):
        """What a program has said."""
        with open(self.said(name), encoding="utf-8", errors="replace") as file:
            return file.read().strip()

    def stop_all(self):
        """Stops what runs. Of each its name, its program's status, and the last line that it said."""
        for node in self.running:
            with contextlib.suppress(tundelca.NodeFault, subprocess.TimeoutExpired):
                self.stop(node)
        processes = self.processes()
        for process in processes.values():
            if process.poll() is None:  # it doesn't listen, or knows no `stop`
                with contextlib.suppress(ProcessLookupError):
                    os.killpg(process.pid, signal.SIGINT)
        for name, process in processes.items():
            with contextlib.suppress(subprocess.TimeoutExpired):
                process.wait(20)
            with contextlib.suppress(ProcessLookupError):
                os.killpg(process.pid, signal.SIGKILL)
            process.wait()
            yield name, process.returncode, self.told(name).rpartition("\n")[2]


def show(shown):
    """Starts all, publishes, and shows what the nodes and the gateway answer."""
    begun = time.monotonic()
    if shown.is_tried:
        print("rt try compiles tundelca thrice, without a proof: two to three minutes on an idle machine", flush=True)
    for node in CORRECT:
        shown.start(node)
    shown.start_beside("liar", sys.executable, "liar.py", shown.paths[LIAR])
    for node in CORRECT:
        shown.wait_for(f"node {node}", shown.clients[node], BUILD)
    took = time.monotonic() - begun
    print(f"nodes 0, 1 and 2 answer at ports {shown.clients[:LIAR]}, after {took:.0f} s; node 3 lies")
    with shown.client(0) as owner:
        done = owner.publish(COMMANDS, owner=0, others=shown.clients[1:LIAR], may_lie=MAY_LIE)
    print(f"node 0 has published that user 7 has role 2, and that it may do operation 5 on object 9: {done}")
    for node in CORRECT:
        with shown.client(node) as client:
            print(f"node {node}: role 2 is of the users", client.listing("assigned_users", role=2), flush=True)
    if gateways.has_tornado():
        show_gateway(shown)
    else:
        print(f"no gateway is shown, which wants tornado for {gateways.PYTHON}: apt-get install python3-tornado")


def show_gateway(shown):
    """Starts the gateway before node 2, and shows what it answers: mallory is user 666, of whom the liar speaks."""
    policy = os.path.join(shown.folder.name, "policy.json")
    tundelca.write_secret(policy, json.dumps(POLICY))
    listen = f"{tundelca.LOOPBACK}:{shown.gateway}"
    shown.start_beside("gateway", gateways.TOOL, shown.clients[2], policy, "--listen", listen)
    shown.wait_for("gateway", shown.gateway, 20)
    asked = Shown(shown.gateway, TOKEN)
    over = time.monotonic() + 20
    while asked.ask("alice")[0] != 200 and time.monotonic() < over:
        time.sleep(0.1)
    for subject in ("alice", "bob", "mallory"):
        asked.show(subject)


def main():
    parser = argparse.ArgumentParser(description=__doc__, formatter_class=argparse.RawDescriptionHelpFormatter)
    parser.add_argument("--seconds", type=int, default=300, help="how long the cluster stands (300)")
    parser.add_argument("--first-port", type=int, default=PORTS, help=f"{PORTS} if left out; 0: any that are free")
    parser.add_argument("program", nargs="?", help="a built tundelca, in place of rt try")
    given = parser.parse_args()
    if given.program is None and shutil.which("rt") is None:
        sys.exit("first_cluster: there is no `rt` here, the command of the Rattle kit: README.md says which kit")
    signal.signal(signal.SIGTERM, lambda *_: sys.exit(1))
    program, fault = given.program and built.program("tundelca", given.program), None
    with Cluster(program, given.first_port, given.seconds) as shown:
        try:
            if shown.is_tried:
                print("rt try compiles the nodes, in two to five minutes", flush=True)
            show(shown)
            print(f"it stands for {given.seconds} s, or until Ctrl-C; look on, and ask on:")
            ports, tool = " ".join(map(str, shown.clients[:LIAR])), "python3 tools/tundelca_ctl.py"
            asked = f"ask {shown.clients[1]} assigned_users role=2"
            for words in (f"status {ports}", f"board {ports} --port 7600", asked):
                print(f"{tool} {words}", flush=True)
            time.sleep(given.seconds)
        except (Ended, tundelca.NodeFault) as error:
            fault = f"first_cluster: {error}"
        except KeyboardInterrupt:
            print()
        finally:
            for name, status, last in shown.stop_all():
                if name.startswith("node "):
                    print(f"{name} ended with status {status}{': ' + last if last else ''}")
        sys.exit(fault)


if __name__ == "__main__":
    main()
