#!/usr/bin/env python3
"""Makes the package, unpacks it into a scratch root, and runs a cluster from it: checks/package.py [CHECKOUT]

CHECKOUT is where tundelca and role_lab were built, or these programs; this checkout if it is left out. Nothing is
installed and no service manager is started: the programs are started directly, with the words of the unit, which is
otherwise judged by reading it. In the case `accounts`, for root alone, numbers of nobody's accounts are the nodes', the
gateway's and a third's.
"""
import configparser
import functools
import gzip
import hashlib
import os
import re
import shutil
import subprocess
import sys
import tempfile

import runner
import gateways
from cluster import TOP, Cluster, tundelca
from runner import Skipped, judge

PATIENCE = 120  # seconds, for a program
NODES, MAY_LIE = 4, 1
HARDENED = {
    "User": "tundelca", "UMask": "0077", "NoNewPrivileges": "yes", "ProtectSystem": "strict", "Restart": "always",
    "RestartPreventExitStatus": "2 3 6", "StateDirectory": "tundelca/%i", "StateDirectoryMode": "0700",
    "LimitCORE": "0", "SystemCallFilter": "@system-service", "SystemCallErrorNumber": "EPERM",
    "Group": "tundelca-clients", "SupplementaryGroups": "tundelca", "RuntimeDirectory": "tundelca/%i",
    "RuntimeDirectoryMode": "0750", "RuntimeDirectoryPreserve": "restart",
    "RestrictAddressFamilies": "AF_INET AF_INET6 AF_UNIX",
}
SERVE = ["serve", "--cluster", "/etc/tundelca/%i.json", "--journal", "/var/lib/tundelca/%i/node.journal", "--socket",
         "/run/tundelca/%i/node.socket", "--no-port"]
STOP = ["-/usr/bin/tundelca-ctl", "stop", "/run/tundelca/%i/node.socket"]
GATEWAY = {
    "User": "tundelca-gateway", "Group": "tundelca-gateway", "UMask": "0077", "NoNewPrivileges": "yes",
    "ProtectSystem": "strict", "Restart": "on-failure", "RestartPreventExitStatus": "3", "IPAddressDeny": "any",
    "IPAddressAllow": "localhost", "LimitCORE": "0", "SystemCallFilter": "@system-service",
    "SupplementaryGroups": "tundelca-clients", "EnvironmentFile": "-/etc/tundelca-gateway/%i.environment",
    "InaccessiblePaths": "-/etc/tundelca -/var/lib/tundelca",
}
DECIDE = ["${NODE}", "/etc/tundelca-gateway/%i.json", "--listen", "${LISTEN}"]
MODULES = "usr/lib/python3/dist-packages"  # where Debian's Python looks by itself
LIBC = {"libc.so.6", "libm.so.6", "libpthread.so.0", "ld-linux-x86-64.so.2", "linux-vdso.so.1"}


def said(*words, due=(0,), **more):
    """What a program says, standard error included. Its status has to be one that is due."""
    ran = subprocess.run(words, stdout=subprocess.PIPE, stderr=subprocess.STDOUT, text=True, timeout=PATIENCE, **more)
    judge(ran.returncode in due, f"{' '.join(words)} ended with status {ran.returncode}: {ran.stdout[-500:]}")
    return ran.stdout


class Unpacked:
    """The package in a scratch root."""

    def __init__(self, folder, *programs):
        package = said(os.path.join(TOP, "packaging", "deb.py"), "--to", folder, *programs).strip()
        self.package, self.root, self.control = package, os.path.join(folder, "root"), os.path.join(folder, "control")
        said("dpkg-deb", "--extract", package, self.root)
        said("dpkg-deb", "--control", package, self.control)

    def path(self, name):
        return os.path.join(self.root, name)

    def read(self, name):
        with open(self.path(name), "rb") as file:
            return file.read()

    def run(self, program, *words, due=(0,)):
        """What a program of the package says, run from the scratch root."""
        path = self.path("usr/bin") + os.pathsep + os.environ["PATH"]
        return said(self.path(f"usr/bin/{program}"), *map(str, words), due=due, env={**os.environ, "PATH": path})


def checksums(one):
    """Each file is as the package's sums say, and the package as its own."""
    with open(one.package, "rb") as package, open(one.package + ".sha256", encoding="ascii") as sums:
        judge(sums.read().split()[0] == hashlib.sha256(package.read()).hexdigest(), "the package's checksum")
    with open(os.path.join(one.control, "md5sums"), encoding="ascii") as file:
        rows = [line.split("  ", 1) for line in file.read().splitlines()]
    for total, name in rows:
        judge(hashlib.md5(one.read(name)).hexdigest() == total, f"the checksum of {name}")
    built = one.read("usr/share/doc/tundelca/BUILT").decode()
    for program in ("tundelca", "role_lab"):
        judge(hashlib.sha256(one.read(f"usr/bin/{program}")).hexdigest() in built, f"BUILT doesn't know {program}")
    judge(re.search(r"^commit [0-9a-f]{40}", built) and re.search(r"^kit rattle-", built, re.MULTILINE), built)
    for script in ("postinst", "prerm"):
        said("sh", "-n", os.path.join(one.control, script))
    return f"{len(rows)} files"


def programs(one):
    """The programs want the C library alone, the tool Python, and nothing is writable or set to run as another."""
    told = one.run("tundelca", "--version")
    with open(os.path.join(one.control, "control"), encoding="utf-8") as file:
        version = re.search(r"^Version: (.*)$", file.read(), re.MULTILINE).group(1)
    judge(version in told, f"version {version} and {told}")
    for program in ("tundelca", "role_lab"):
        asked = {os.path.basename(line.split()[0]) for line in said("ldd", one.path(f"usr/bin/{program}")).splitlines()}
        judge(asked <= LIBC, f"{program} wants {asked - LIBC}")
    judge("status" in one.run("tundelca-ctl", "--help"), "tundelca-ctl has no status")
    for folder, folders, names in os.walk(one.root):
        for path in (os.path.join(folder, name) for name in folders + names):
            mode = os.lstat(path).st_mode
            judge(os.path.islink(path) or mode & 0o7022 == 0, f"the mode of {path} is {mode:o}")
    return told.splitlines()[0]


def manuals(one):
    """Each man page is one that troff takes without a word, and has what its page has."""
    found = [os.path.join(folder, name) for folder, _, names in os.walk(one.path("usr/share/man")) for name in names]
    judge(len(found) >= 7, f"man pages: {found}")
    for path in found:
        with gzip.open(path) as file:
            text = file.read()
        judge(text.count(b"\n.SH ") + text.count(b"\n.SS ") >= 2, f"{path} has no parts")
        if shutil.which("groff"):
            ran = subprocess.run(["groff", "-K", "utf8", "-t", "-man", "-T", "utf8", "-rLL=120n"], input=text,
                                 capture_output=True, timeout=PATIENCE)
            judge(ran.returncode == 0 and b"error" not in ran.stderr, f"{path}: {ran.stderr.decode()[:500]}")
    return f"{len(found)} pages"


def unit(one):
    """The units, by reading: their users, what they may not, when they are started again, and that what they start is
    there. The gateway's account is in no group that reads keys."""
    counts = [read_unit(one, "tundelca@.service", HARDENED, SERVE, STOP),
              read_unit(one, "tundelca-gateway@.service", GATEWAY, DECIDE, [])]
    judge(os.access(one.path("usr/bin/tundelca-ctl"), os.X_OK), "tundelca-ctl is not in the package")
    with open(os.path.join(one.control, "postinst"), encoding="utf-8") as file:
        script = file.read()
    for due in ("useradd --system --user-group --home-dir /nonexistent",
                "chown root:tundelca-gateway /etc/tundelca-gateway"):
        judge(due in script, f"postinst lacks {due}")
    judge(not re.search(r"usermod|adduser|gpasswd", script), "postinst puts an account into a group")
    for folder in ("etc/tundelca", "etc/tundelca-gateway"):
        judge(os.stat(one.path(folder)).st_mode & 0o777 == 0o750, f"the mode of {folder}")
    with open(os.path.join(one.control, "control"), encoding="utf-8") as file:
        judge("Recommends: python3-tornado" in file.read(), "python3-tornado isn't recommended")
    return f"{counts[0]} and {counts[1]} settings"


def read_unit(one, unit_name, hardened, due, stop):
    """Reads one unit. How many settings it has."""
    name = f"usr/lib/systemd/system/{unit_name}"
    parts = configparser.ConfigParser(interpolation=None, comment_prefixes=("#",), delimiters=("=",))
    parts.optionxform = str
    parts.read_string(one.read(name).decode())
    service = parts["Service"]
    for key, value in hardened.items():
        judge(service.get(key) == value, f"{unit_name}: {key} is {service.get(key)}")
    words = service["ExecStart"].replace("\\\n", " ").split()
    judge(os.access(one.path(words[0].lstrip("/")), os.X_OK), f"{words[0]} is not in the package")
    judge(words[1:] == due, f"{unit_name}: the words are {words[1:]}")
    judge(service.get("ExecStop", "").split() == stop, f"{unit_name}: ExecStop is {service.get('ExecStop')}")
    if shutil.which("systemd-analyze"):  # it reads the unit, and starts nothing
        ran = subprocess.run(["systemd-analyze", "verify", "--recursive-errors=no", "--man=no", one.path(name)],
                             capture_output=True, text=True, timeout=PATIENCE)
        told = [line for line in ran.stderr.splitlines() if "tundelca" in line and "not executable" not in line]
        judge(not told, "\n".join(told))
    return len(service)


MADE = ["useradd --system --user-group --home-dir /var/lib/tundelca --no-create-home --shell /usr/sbin/nologin tundelca",
        "useradd --system --user-group --home-dir /nonexistent --no-create-home --shell /usr/sbin/nologin "
        "tundelca-gateway", "groupadd --system tundelca-clients"]
SET = ["chown root:tundelca /etc/tundelca", "chmod 0750 /etc/tundelca",
       "chown root:tundelca-gateway /etc/tundelca-gateway", "chmod 0750 /etc/tundelca-gateway"]


def installed(one):
    """What the package's script makes on a machine: the users and the group that aren't there. Nothing is made here:
    the programs that it calls are stand-ins, which note their words."""
    for is_there in (False, True):
        with tempfile.TemporaryDirectory(prefix="tundelca-") as folder:
            log = os.path.join(folder, "log")
            for name in ("getent", "useradd", "groupadd", "chown", "chmod"):
                path = os.path.join(folder, name)
                with open(path, "w", encoding="ascii") as file:
                    does = f"exit {0 if is_there else 2}" if name == "getent" else f'echo {name} "$@" >> {log}'
                    file.write(f"#!/bin/sh\n{does}\n")
                os.chmod(path, 0o755)
            said("/bin/sh", os.path.join(one.control, "postinst"), "configure", env={"PATH": folder})
            with open(log, encoding="ascii") as file:
                came = file.read().splitlines()
            judge(came == ([] if is_there else MADE) + SET, f"made were {came}")
    with gzip.open(one.path("usr/share/doc/tundelca/NEWS.Debian.gz"), "rt", encoding="ascii") as file:
        news = file.read()
    judge(re.match(r"tundelca \([0-9.]+\) unstable; urgency=medium\n", news) and "port.conf" in news, news)
    return "two users and a group, or none"


ASKING = """
import sys
from tundelca import Client
with Client(sys.argv[1]) as node:
    print(sys.modules["tundelca"].__file__, node.reach(owner=0))
"""


def client(one, path, reach):
    """A program elsewhere that looks where Debian's Python does, and nowhere else of the package, finds the client."""
    words = [sys.executable, "-c", ASKING, path]
    told = said(*words, cwd="/", env={**os.environ, "PYTHONPATH": one.path(MODULES), "PYTHONDONTWRITEBYTECODE": "1"})
    judge(told == f"{one.path(MODULES)}/tundelca.py {reach}\n", told)


class Packaged(Cluster):
    """Four nodes with journals whose program, files, journals and sockets lie as the package has them, in the scratch
    root, or in a folder there. Their folders are made as systemd does it, and they have the unit's words."""

    def __init__(self, one, folder=""):
        self.one, self.top, etc = one, one.path(folder), os.path.join(one.path(folder), "etc/tundelca")
        ports = tundelca.free_ports(2 * NODES)
        files = one.run("tundelca-ctl", "files", etc, "--nodes", *ports[:NODES], "--clients", *ports[NODES:], "--roles",
                        "2=0", "--may-lie", MAY_LIE)
        judge(files.count(".json") == NODES, files)
        paths = [os.path.join(etc, f"node{me}.json") for me in range(NODES)]
        for me in range(NODES):
            os.makedirs(os.path.dirname(self.journal(me)), 0o700)
            os.makedirs(os.path.dirname(self.socket_path(me)))
            os.chmod(os.path.dirname(self.socket_path(me)), 0o750)
        super().__init__(one.path("usr/bin/tundelca"), paths=paths, has_journals=True, waits=True, doors=("socket",))

    def socket_path(self, me):
        return os.path.join(self.top, "run/tundelca", str(me), "node.socket")

    def journal(self, me):
        return os.path.join(self.top, "var/lib/tundelca", str(me), "node.journal")


def cluster(one):
    """Four nodes with journals and the tool, all from the scratch root; one is killed and started again."""
    os.umask(0o077)  # as in the unit
    with Packaged(one) as nodes:
        clients = [nodes.socket_path(me) for me in range(NODES)]
        one.run("tundelca-ctl", "ask", clients[0], "assign", "user=7", "role=2")
        nodes.kill(3)
        one.run("tundelca-ctl", "ask", clients[0], "grant", "role=2", "operation=5", "object=9")
        nodes.start(3)
        nodes.wait([3])
        with nodes.client(3) as node:
            node.wait_for_reach(0, 2, PATIENCE)
            session = node.open(7)
            node.ask("activate", session=session, user=7, role=2)
            judge(node.check(session, 7, 5, 9).allow, "it isn't allowed")
        client(one, clients[3], 2)
        for path in (nodes.journal(3), nodes.journal(3) + "-wal"):
            mode = os.stat(path).st_mode & 0o777
            judge(mode & 0o077 == 0, f"{path} has mode {mode:o}")
        table = one.run("tundelca-ctl", "status", *clients, due=(0, 1))  # 1: something is to be seen to
        judge(all(path in table for path in clients), table)
        for path in clients:
            judge(os.stat(path).st_mode & 0o777 == 0o660, f"the mode of {path} is {os.stat(path).st_mode:o}")
            one.run("tundelca-ctl", "stop", path)
        statuses = [nodes.running[me].poll() for me in range(NODES)]  # `stop` has waited for their ends
        judge(statuses == [0] * NODES, f"statuses {statuses}")
        left = [path for path in clients if os.path.lexists(path)]
        judge(not left, f"{left} are left")
    return "four nodes, one killed and started again, stopped as by systemd"


NODE, CLIENTS, THIRD = 61_001, 61_002, 61_003  # accounts of nobody: the nodes', their clients' group, a third


class Accounts(Packaged):
    """The same nodes under an account of their own, as the unit has it: with the clients' group."""

    def __init__(self, one):
        super().__init__(one, "accounts")

    def start(self, me):
        for name in ("", "etc", "etc/tundelca", "run", "run/tundelca", "var", "var/lib", "var/lib/tundelca"):
            os.chmod(os.path.join(self.top, name), 0o711)
        for path, group, mode in ((self.paths[me], NODE, 0o600), (os.path.dirname(self.journal(me)), NODE, 0o700),
                                  (self.journal(me), NODE, 0o600), (self.journal(me) + "-wal", NODE, 0o600),
                                  (os.path.dirname(self.socket_path(me)), CLIENTS, 0o750)):
            os.chown(path, NODE, group)
            os.chmod(path, mode)
        super().start(me)

    def settings(self, me):
        return {**super().settings(me), "user": NODE, "group": CLIENTS, "extra_groups": [NODE]}

    def door(self, me):
        return tundelca.door(self.socket_path(me), NODE)


def accounts(one):
    """What the package's tool says to the nodes' account, to one of their clients' group, and to a third."""
    if os.geteuid() != 0 or not os.path.exists("/usr/bin/python3"):
        raise Skipped("only root may act for other accounts, and they need Debian's Python")
    for folder in (one.root, os.path.dirname(one.root), os.path.dirname(os.path.dirname(one.root))):
        os.chmod(folder, 0o711)
    with Accounts(one) as nodes:
        path, words = nodes.socket_path(0), ["--owner", str(NODE)]

        def ctl(due, account, groups, *said):
            ran = subprocess.run([one.path("usr/bin/tundelca-ctl"), *said], stdout=subprocess.PIPE,
                                 stderr=subprocess.STDOUT, text=True, timeout=PATIENCE, user=account, group=account,
                                 extra_groups=groups, env={"PATH": "/usr/bin:/bin"}, cwd="/")
            judge(ran.returncode == due, f"{account} {groups} {said}: {ran.returncode} {ran.stdout}")
            return ran.stdout

        ctl(0, NODE, [], "ask", path, "reach", "owner=0")
        ctl(0, THIRD, [CLIENTS], "ask", path, "assign", "user=7", "role=2", *words)
        judge(f"account {NODE}" in ctl(2, THIRD, [CLIENTS], "ask", path, "stop"), "a stranger's node is believed")
        judge("Permission denied" in ctl(2, THIRD, [], "ask", path, "stop", *words), "a third is let in")
        judge("Permission denied" in ctl(2, THIRD, [], "stop", path, *words), "a third is let in")
        ctl(3, THIRD, [CLIENTS], "check", nodes.paths[0])  # who may ask doesn't read the keys
        for me in range(NODES):
            ctl(0, THIRD, [CLIENTS], "stop", nodes.socket_path(me), *words)
        statuses = [nodes.running[me].poll() for me in range(NODES)]
        judge(statuses == [0] * NODES, f"statuses {statuses}")
    return "the owner, the gateway's account, a third"


def gateway(one):
    """A trial out of the package: four nodes, and the gateway before one of them."""
    gateways.expect_tornado()
    told = one.run("tundelca-ctl", "try", "--once")
    judge('"decision": true' in told and '"decision": false' in told, told)
    return re.search(r"its first answer came after [\d.]+ s", told).group(0)


def cases(given):
    """What is judged of the package, which is made once."""

    @functools.lru_cache(maxsize=None)
    def unpacked():
        if shutil.which("dpkg-deb") is None:
            raise Skipped("there is no dpkg-deb here")
        return Unpacked(given.new_folder(), given.program("tundelca"), given.program("role_lab"))

    return [runner.Case(part.__name__, lambda part=part: part(unpacked()))
            for part in (checksums, programs, manuals, installed, unit, cluster, accounts, gateway)]


if __name__ == "__main__":
    runner.main("packaging", __doc__, cases)
