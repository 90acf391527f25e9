"""`try`: four nodes in memory and the gateway before one of them, to be looked at, on free ports; nothing is left."""
import contextlib
import hashlib
import http.client
import json
import os
import secrets
import shlex
import shutil
import signal
import subprocess
import sys
import tempfile
import time

import tundelca
from ctl import AWAY, DONE, WORDS, Fault

NODES, MAY_LIE, ASKED, OWNER = 4, 1, 2, 0  # the gateway asks node 2, and node 0 owns the role
ROLES = [(2, 0), (3, 1)]
PATIENCE = 30.0  # seconds for all to stand
POLICY = {"subjects": {"user": {"alice": 7, "bob": 8}},
          "types": {"record": {"owner": OWNER, "ids": [1, 4_294_967_295], "all": 0,
                               "actions": {"read": 5, "write": 6}}},
          "roles": {"editor": 2},
          "forward": {"subject": "user", "header": "X-User", "routes": [["GET", "/records/{id}", "read", "record"]]}}
COMMANDS = [{"op": "assign", "user": 7, "role": 2}, {"op": "grant", "role": 2, "operation": 5, "object": 0}]
EVALUATION = "/access/v1/evaluation"
HERE = os.path.dirname(os.path.dirname(os.path.abspath(__file__)))


def add(steps):
    """The words of this command."""
    one = steps.add_parser("try", "four nodes in memory and a gateway, to be asked with curl; nothing is left",
                           example="""
  tundelca-ctl try             stands until Ctrl-C
  tundelca-ctl try --once      shows it, and ends

It takes free ports and a folder of its own under /tmp, and changes nothing else: no account, no file in /etc, no node
that runs. It wants python3-tornado, as the gateway does.""")
    one.add_argument("--once", action="store_true", help="end when all is shown")
    one.add_argument("--program", metavar="PATH", help="the tundelca to take; that of the package if left out")
    one.set_defaults(run=run)


def program_of(given):
    """The program that serves nodes."""
    built = os.path.join(os.path.dirname(HERE), "crates", "tundelca", "out", "tundelca")
    beside = os.path.join(os.path.dirname(os.path.dirname(HERE)), "bin", "tundelca")  # where a package is unpacked
    found = [path for path in (given, built, beside, shutil.which("tundelca")) if path and os.access(path, os.X_OK)]
    if not found or given and found[0] != given:
        raise Fault(WORDS, f"{given or 'tundelca'} is not there: name one with --program")
    return os.path.abspath(found[0])


def attended(words):
    """Words that start a program which ends with this one, however this one ends."""
    with_death = shutil.which("setpriv")
    return words if with_death is None else [with_death, "--pdeathsig", "KILL", *words]


class Shown:
    """A gateway that is asked, and what is printed of it."""

    def __init__(self, port, token):
        self.port, self.token = port, token
        self.kept = http.client.HTTPConnection(tundelca.LOOPBACK, port, timeout=5.0)

    def ask(self, subject, **context):
        """The status and the answer to whether this user may read record 9."""
        body = {"subject": {"type": "user", "id": subject}, "action": {"name": "read"},
                "resource": {"type": "record", "id": "9"}, **context}
        self.kept.request("POST", EVALUATION, json.dumps(body), {"Authorization": f"Bearer {self.token}",
                                                                "Content-Type": "application/json"})
        answer = self.kept.getresponse()
        return answer.status, json.loads(answer.read())

    def show(self, subject):
        """Prints a curl line and what it answers."""
        body = json.dumps({"subject": {"type": "user", "id": subject}, "action": {"name": "read"},
                           "resource": {"type": "record", "id": "9"}}, separators=(",", ":"))
        print(f"curl -H 'Authorization: Bearer {self.token}' -H 'Content-Type: application/json' "
              f"-d {shlex.quote(body)} {tundelca.LOOPBACK}:{self.port}{EVALUATION}")
        print(f"    {json.dumps(self.ask(subject)[1])}", flush=True)

    def show_forward(self, subject):
        """Prints what a proxy would ask."""
        path = "/v1/forward/records/9"
        self.kept.request("GET", path, headers={"Authorization": f"Bearer {self.token}", "X-User": subject})
        answer = self.kept.getresponse()
        answer.read()
        print(f"curl -so /dev/null -w '%{{http_code}}\\n' -H 'Authorization: Bearer {self.token}' "
              f"-H 'X-User: {subject}' {tundelca.LOOPBACK}:{self.port}{path}\n    {answer.status}", flush=True)

    def until(self, decision, begun):
        """Asks until alice's decision is this one. The seconds since the moment."""
        while time.monotonic() < begun + PATIENCE:
            status, answer = self.ask("alice")
            if status == 200 and answer["decision"] is decision:
                return time.monotonic() - begun
        raise Fault(AWAY, f"alice's answer isn't {decision} after {PATIENCE:.0f} s")

    def show_revocation(self, owner):
        """Takes alice's role away at its owner's node, and gives it back. Prints how soon the gateway knows."""
        begun = time.monotonic()
        owner.ask("deassign", user=7, role=2)
        away = self.until(False, begun)
        begun = time.monotonic()
        owner.ask("assign", user=7, role=2)
        back = self.until(True, begun)
        print(f"alice's role was taken away at node {OWNER}: a no at node {ASKED}'s gateway after {away * 1e3:.0f} ms, "
              f"and a yes {back * 1e3:.0f} ms after it was given back", flush=True)


class Trial:
    """The nodes and the gateway, and the folder with their files."""

    def __init__(self, program):
        self.program, self.processes = program, []
        self.folder = tempfile.TemporaryDirectory(prefix="tundelca-try-")
        ports = tundelca.free_ports(2 * NODES + 1)
        self.clients, self.port = ports[NODES:2 * NODES], ports[-1]
        self.paths = tundelca.cluster_files(self.folder.name, ROLES, ports[:NODES], self.clients, MAY_LIE)
        self.token = secrets.token_urlsafe(16)
        self.policy = os.path.join(self.folder.name, "policy.json")
        callers = {"you": [hashlib.sha256(self.token.encode()).hexdigest()]}
        tundelca.write_secret(self.policy, json.dumps({**POLICY, "callers": callers}))

    def start(self, *words):
        self.processes.append(subprocess.Popen(attended(list(words)), stdin=subprocess.DEVNULL,
                                               stdout=subprocess.DEVNULL, stderr=self.said()))

    def said(self):
        return open(os.path.join(self.folder.name, f"said{len(self.processes)}"), "wb")

    def begin(self):
        """Starts all, publishes, and waits until the gateway decides."""
        for path in self.paths:
            self.start(self.program, "serve", "--cluster", path, "--in-memory")
        self.start(os.path.join(HERE, "tundelca_gateway.py"), str(self.clients[ASKED]), self.policy, "--listen",
                   f"{tundelca.LOOPBACK}:{self.port}")
        over = time.monotonic() + PATIENCE
        for port in self.clients:
            self.wait(lambda port=port: tundelca.Client(port).close(), over)
        for path in self.paths:  # their keys are read
            os.unlink(path)
        with tundelca.Client(self.clients[OWNER]) as owner:
            others = [port for me, port in enumerate(self.clients) if me != OWNER]
            owner.publish(COMMANDS, OWNER, others, MAY_LIE)
        self.wait(self.is_ready, over)

    def is_ready(self):
        """Raises an OSError while the gateway doesn't decide."""
        asked = http.client.HTTPConnection(tundelca.LOOPBACK, self.port, timeout=5.0)
        with contextlib.closing(asked):
            asked.request("GET", "/health/ready")
            if asked.getresponse().status != 200:
                raise OSError("not yet")

    def wait(self, what, over):
        """Waits until this raises nothing."""
        while True:
            try:
                return what()
            except (tundelca.Unreachable, OSError, http.client.HTTPException):
                self.look()
                if time.monotonic() > over:
                    raise Fault(AWAY, "the nodes or the gateway don't come: " + self.told()) from None
                time.sleep(0.02)

    def look(self):
        """Raises a fault where one has ended."""
        for at, process in enumerate(self.processes):
            if process.poll() is not None:
                name = f"node {at}" if at < NODES else "the gateway"
                raise Fault(AWAY, f"{name} ended with status {process.returncode}: {self.told(at)}")

    def told(self, at=NODES):
        """What a program said last."""
        with open(os.path.join(self.folder.name, f"said{at}"), encoding="utf-8", errors="replace") as file:
            return (file.read().strip().splitlines() or ["nothing"])[-1]

    def end(self):
        """Ends all, and removes the folder."""
        for process in self.processes:
            process.kill()
        for process in self.processes:
            process.wait()
        self.folder.cleanup()


def run(given):
    """Shows a cluster and its gateway."""
    for number in (signal.SIGTERM, signal.SIGHUP):
        signal.signal(number, lambda *_: sys.exit(1))
    begun = time.monotonic()
    trial = Trial(program_of(given.program))
    try:
        trial.begin()
        shown = Shown(trial.port, trial.token)
        shown.ask("alice")
        first = time.monotonic() - begun
        print(f"four nodes in memory, at the client ports {', '.join(map(str, trial.clients))}; any one may lie")
        print(f"node {OWNER} owns role 2, the editors, and has published that user 7 is one and that they may read")
        print(f"a gateway asks node {ASKED}; by its policy alice is user 7, bob is user 8; its first answer came after "
              f"{first:.1f} s")
        for subject in ("alice", "bob"):
            shown.show(subject)
        shown.show_forward("alice")
        with tundelca.Client(trial.clients[OWNER]) as owner:
            shown.show_revocation(owner)
        if not given.once:
            stand(trial)
    finally:
        trial.end()
    return DONE


def stand(trial):
    """Stands until it is interrupted."""
    tool = "tundelca-ctl" if HERE.startswith("/usr/") else f"python3 {os.path.join(HERE, 'tundelca_ctl.py')}"
    print(f"{tool} status {' '.join(map(str, trial.clients))}")
    print(f"{tool} policy {trial.policy} why user bob read record 9 --node {trial.clients[ASKED]}")
    print(f"{tool} ask {trial.clients[OWNER]} assign user=8 role=2     # bob is an editor then")
    print("it stands until Ctrl-C", flush=True)
    with contextlib.suppress(KeyboardInterrupt):
        while True:
            trial.look()
            time.sleep(0.5)
