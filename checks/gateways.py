"""The gateway as a process of its own, as callers have it, before nodes or what plays one. For deciding and others."""
import hashlib
import http.client
import json
import os
import re
import signal
import socket
import subprocess
import tempfile
from types import TracebackType
from typing import Any, Dict, List, Optional, Tuple, Type, Union

from paths import TOP  # noqa: F401  first
import decide
import tundelca
from played import Played
from runner import Skipped, judge, wait_until

TOOL = os.path.join(TOP, "tools", "tundelca_gateway.py")
PYTHON = "/usr/bin/python3"  # which sees Debian's modules
PATIENCE = 20.0  # seconds, for an answer
TOKEN, OTHER = "secret", "another"
EVALUATION, EVALUATIONS, FORWARD = "/access/v1/evaluation", "/access/v1/evaluations", "/v1/forward"
OWNERS = {2: 0, 4: 0, 3: 1}  # of roles
POLICY: Dict[str, Any] = {
    "subjects": {"user": {"alice": 7, "bob": 8, "carol": 9}, "employee": [100, 199]},
    "types": {
        "record": {"owner": 0, "ids": [1, 4_294_967_295], "all": 0, "actions": {"read": 5, "write": 6}},
        "page": {"owner": 1, "ids": {"home": 1, "news": 2}, "actions": {"read": 5, "print": 7}},
    },
    "roles": {"editor": 2, "guest": 3},
    "callers": {"shop": [hashlib.sha256(TOKEN.encode()).hexdigest(), hashlib.sha256(b"old").hexdigest()],
                "bank": [hashlib.sha256(OTHER.encode()).hexdigest()]},
    "forward": {"subject": "user", "header": "X-User", "routes": [
        ["GET", "/records/{id}", "read", "record"], ["PUT", "/records/{id}", "write", "record"],
        ["GET", "/records", "read", "record"], ["GET", "/pages/{id}/print", "print", "page"]]},
}
COMMANDS: List[Dict[str, Any]] = [  # of owner 0, and the last two of owner 1
    {"op": "assign", "user": 7, "role": 2}, {"op": "grant", "role": 2, "operation": 5, "object": 0},
    {"op": "grant", "role": 2, "operation": 6, "object": 9}, {"op": "assign", "user": 120, "role": 4},
    {"op": "grant", "role": 4, "operation": 5, "object": 3}, {"op": "assign", "user": 8, "role": 3},
    {"op": "grant", "role": 3, "operation": 7, "object": 1}]
FAULTS = re.compile("Traceback|fault|[Ee]xception|never")  # in what it says, where it isn't as it should be
Answer = Tuple[int, Any]


def has_tornado() -> bool:
    """Whether Debian's Python and its tornado are here."""
    words = [PYTHON, "-c", "import tornado.http1connection"]
    return os.path.exists(PYTHON) and not subprocess.run(words, capture_output=True, timeout=PATIENCE).returncode


def expect_tornado() -> None:
    """Skips the case where they aren't."""
    if not has_tornado():
        raise Skipped(f"NO GATEWAY WAS TRIED: {PYTHON} has no tornado; apt-get install python3-tornado")


def evaluation(subject: str = "alice", action: str = "read", id_: str = "9", kind: str = "record",
               who: str = "user", **more: Any) -> Dict[str, Any]:
    """The body of an evaluation."""
    return {"subject": {"type": who, "id": subject}, "action": {"name": action},
            "resource": {"type": kind, "id": id_}, **more}


class Gateway:
    """A gateway that runs, with its policy file in a folder of its own."""

    def __init__(self, node: Union[int, str], policy: Optional[Dict[str, Any]] = None, *words: str,
                 program: str = TOOL) -> None:
        self.folder = tempfile.TemporaryDirectory(prefix="tundelca-")
        self.path = os.path.join(self.folder.name, "policy.json")
        self.policy = POLICY if policy is None else policy
        self.write(self.policy)
        self.port = 0 if "--socket" in words else tundelca.free_ports(1)[0]
        self.where: Union[int, str] = words[words.index("--socket") + 1] if "--socket" in words else self.port
        listen = [] if "--socket" in words else ["--listen", f"{tundelca.LOOPBACK}:{self.port}"]
        self.words = [program, str(node), self.path, *listen, *words]
        self.said = open(os.path.join(self.folder.name, "said"), "w+", encoding="utf-8")
        self.process = subprocess.Popen(self.words, stdin=subprocess.DEVNULL, stderr=self.said)

    def write(self, policy: Union[str, Dict[str, Any]]) -> None:
        """Writes the policy file anew, in one step."""
        text = policy if isinstance(policy, str) else json.dumps(policy)
        with open(self.path + ".new", "w", encoding="utf-8") as file:
            file.write(text)
        os.chmod(self.path + ".new", 0o640)
        os.replace(self.path + ".new", self.path)

    def log(self) -> str:
        """What it has said."""
        with open(self.said.name, encoding="utf-8") as file:
            return file.read()

    def connect(self, patience: float = PATIENCE) -> socket.socket:
        """A connection to it."""
        if isinstance(self.where, str):
            made = socket.socket(socket.AF_UNIX)
            made.settimeout(patience)
            made.connect(self.where)
            return made
        return socket.create_connection((tundelca.LOOPBACK, self.where), patience)

    def answers(self, path: str = "/health/live") -> bool:
        """Whether it answers this with 200."""
        judge(self.process.poll() is None, f"the gateway ended with {self.process.returncode}: {self.log()}")
        try:
            return self.ask("GET", path)[0] == 200
        except (OSError, http.client.HTTPException):
            return False

    def wait(self, path: str = "/health/ready", patience: float = PATIENCE) -> "Gateway":
        """Waits until it is ready. The gateway."""
        wait_until(lambda: self.answers(path), f"the gateway answers at {path}: {self.log()}", patience)
        return self

    def call(self, method: str, path: str, body: Any = None, token: Optional[str] = TOKEN,
             fields: Optional[Dict[str, str]] = None) -> Tuple[int, Dict[str, str], bytes]:
        """A call on a connection of its own: the status, the headers by their names in small letters, the body."""
        caller = http.client.HTTPConnection(tundelca.LOOPBACK, self.port or 80, timeout=PATIENCE)
        caller.sock = self.connect()
        head = {} if token is None else {"Authorization": f"Bearer {token}"}
        data = body if body is None or isinstance(body, bytes) else json.dumps(body).encode()
        if data is not None:
            head["Content-Type"] = "application/json"
        try:
            caller.request(method, path, data, {**head, **(fields or {})})
            answer = caller.getresponse()
            return answer.status, {name.lower(): value for name, value in answer.getheaders()}, answer.read()
        finally:
            caller.close()

    def ask(self, method: str, path: str, body: Any = None, token: Optional[str] = TOKEN,
            fields: Optional[Dict[str, str]] = None) -> Answer:
        """The status and the JSON of an answer."""
        status, _, text = self.call(method, path, body, token, fields)
        return status, json.loads(text) if text else None

    def decides(self, **asked: Any) -> Optional[bool]:
        """The decision on an evaluation; None where there is none."""
        status, answer = self.ask("POST", EVALUATION, evaluation(**asked))
        return answer["decision"] if status == 200 else None

    def metric(self, name: str) -> float:
        """The sum of a metric's samples."""
        text = self.call("GET", "/metrics", token=None)[2].decode()
        return sum(float(line.rpartition(" ")[2]) for line in text.splitlines()
                   if line.startswith(f"tundelca_gateway_{name}") and line[len(f"tundelca_gateway_{name}")] in "{ ")

    def processor(self) -> float:
        """How many seconds of a processor it has had."""
        with open(f"/proc/{self.process.pid}/stat", encoding="ascii") as file:
            return sum(map(int, file.read().rpartition(")")[2].split()[11:13])) / os.sysconf("SC_CLK_TCK")

    def stop(self, number: int = signal.SIGTERM) -> int:
        """Ends it by a signal. Its status."""
        if self.process.poll() is None:
            self.process.send_signal(number)
        return self.process.wait(PATIENCE)

    def __enter__(self) -> "Gateway":
        return self

    def __exit__(self, kind: Optional[Type[BaseException]], fault: Optional[BaseException],
                 trace: Optional[TracebackType]) -> None:
        self.process.kill()
        self.process.wait()
        said = self.log()
        self.said.close()
        self.folder.cleanup()
        judge(kind is not None or not FAULTS.search(said), f"a fault of the gateway: {said}")


class Before:
    """A played node with what `COMMANDS` say, or other commands, and a gateway before it."""

    def __init__(self, policy: Optional[Dict[str, Any]] = None, *words: str) -> None:
        self.cluster = Played(tundelca.free_ports(4), OWNERS)
        self.node = self.cluster.nodes[0]
        self.node.changed = {"f": 1}
        self.node.lies = {"decide_all": self.decided}
        for command in COMMANDS:
            self.publish(**command)
        self.gateway = Gateway(self.node.port, policy, *words)

    def publish(self, **command: Any) -> None:
        """Puts a command into the stream of its role's owner."""
        self.cluster.streams[OWNERS[command["role"]]].append(command)

    def decided(self, asked: Dict[str, Any]) -> bytes:
        """What a correct node answers."""
        models = [decide.Model(decide.roles_of(list(OWNERS.items()), owner)) for owner in range(4)]
        for model, stream in zip(models, self.cluster.streams):
            for command in stream:
                model.take(command)
        made = []
        for user, owner, operation, object_ in asked["asked"]:
            allow, role, rule = models[owner].decision(user, operation, object_)
            made.append({"allow": allow, "reach": models[owner].length,
                         **({"role": role} if allow else {"rule": rule})})
        return json.dumps({"at": 9, "decisions": made}).encode() + b"\n"

    def stands(self, changed: Dict[str, Any], is_ready: bool) -> None:
        """Has the node say this of itself, and waits until the gateway has heard it."""
        self.node.changed = {"f": 1, **changed}
        wait_until(lambda: (self.gateway.ask("GET", "/health/ready")[0] == 200) is is_ready,
                   f"{changed}: ready {is_ready}")

    def __enter__(self) -> "Before":
        try:
            self.gateway.wait()
        except BaseException:
            self.__exit__(None, None, None)
            raise
        return self

    def __exit__(self, kind: Optional[Type[BaseException]], fault: Optional[BaseException],
                 trace: Optional[TracebackType]) -> None:
        self.gateway.__exit__(kind, fault, trace)
        self.cluster.end()
