"""The clients of docs/CLIENTS.md: each is run against a node, and prints what stands below it. For run_all.

They speak to the package's node, at its socket. Here that is a node of this account in a folder of its own; and what
the page says of ports makes of each a client of a node's port.
"""
import os
import pwd
import re
import shutil
import subprocess
import sys
import tempfile

from cluster import TOP, Cluster
from runner import judge

PATIENCE = 60  # seconds, for a client
NEEDS = {"sh": "nc", "python": sys.executable, "go": "go", "js": "node"}  # what a client is run with
PATH = "/run/tundelca/0/node.socket"


def words_of(language, folder, code):
    """The words that run a client."""
    if language == "sh":
        return ["sh", "-c", code]
    path = os.path.join(folder, f"ask.{ {'python': 'py'}.get(language, language)}")
    with open(path, "w", encoding="utf-8") as file:
        file.write(code)
    return {"python": [sys.executable, path], "go": ["go", "run", path], "js": ["node", path]}[language]


def at_socket(_, code, nodes):
    """The client at the socket of a node of this account."""
    account = pwd.getpwuid(os.geteuid()).pw_name
    for old, new in [('"tundelca"', f'"{account}"'), ("= tundelca:750", f"= {account}:750"),
                     (os.path.dirname(PATH), os.path.dirname(nodes.socket_path(0)))]:
        code = code.replace(old, new)
    return code


def at_port(language, code, nodes):
    """The client at the node's port, as the page says how."""
    changed = {"sh": [(r"(?s)^\[.*?&& nc -NU \S+", "nc -N 127.0.0.1 7400")],
               "python": [(r'Client\("[^"]*"\)', "Client(7400)")],
               "go": [(r'"unix", "[^"]*"', '"tcp", "127.0.0.1:7400"'), (r" \|\| !isOf\(.*?\) \{", " {")],
               "js": [(r"net.connect\(at\)", 'net.connect(7400, "127.0.0.1")'),
                      (r"(?s)const at = .*?;\n\n", "")]}
    for old, new in changed[language]:
        judge(re.search(old, code), f"docs/CLIENTS.md, {language}: there is no {old}")
        code = re.sub(old, new, code)
    return code.replace("7400", str(nodes.clients[0]))


def run(program):
    """Runs each client that this machine has what it needs for."""
    return "; ".join(f"at {way.__name__[3:]}s {run_all(program, way)}" for way in (at_socket, at_port))


def run_all(program, way):
    """Runs each client in this way."""
    with open(os.path.join(TOP, "docs", "CLIENTS.md"), encoding="utf-8") as file:
        clients = re.findall(r"```(sh|python|go|js)\n(.*?)```\n+```text\n(.*?)```", file.read(), re.DOTALL)
    languages = [language for language, _, _ in clients]
    judge(sorted(languages) == sorted(NEEDS), f"docs/CLIENTS.md: {languages}")
    done, doors = [], ("socket",) if way is at_socket else ("port",)
    with tempfile.TemporaryDirectory(prefix="tundelca-") as folder, Cluster(program, waits=True, doors=doors) as nodes:
        with nodes.client(0) as owner:
            owner.ask("assign", user=7, role=2)
            owner.ask("grant", role=2, operation=5, object=9)
            owner.wait_for_reach(0, 2)
        for language, code, due in clients:
            if shutil.which(NEEDS[language]) is None:
                done.append(f"{language} SKIPPED: there is no {NEEDS[language]}")
                continue
            environment = {**os.environ, "PYTHONPATH": os.path.join(TOP, "tools"),
                           "GOCACHE": os.path.join(folder, "go")}
            words = words_of(language, folder, way(language, code, nodes))
            ran = subprocess.run(words, capture_output=True, text=True, timeout=PATIENCE, env=environment)
            came = re.sub(r'at("?[:=] ?)\d+', r"at\g<1>AT", ran.stdout)
            said = f"docs/CLIENTS.md, {language}: due {due!r}, came {ran.stdout!r} {ran.stderr!r}"
            judge(came == re.sub(r'at("?[:=] ?)\d+', r"at\g<1>AT", due) and ran.returncode == 0, said)
            done.append(language)
    return ", ".join(done)
