#!/usr/bin/env python3
"""Makes a Debian package of the programs that were proved and built: tundelca_VERSION_amd64.deb and its checksum.

    packaging/deb.py [--to FOLDER] [TUNDELCA ROLE_LAB]

The programs are those of crates/tundelca/out and crates/role_lab/out where none are named. Beside them come the tool
tundelca-ctl, the gateway, their units, man pages made from docs/, what an upgrade changes (NEWS), the licences of the
kit's crates that are in the programs, and what was built from what. The same commit, programs and Python make the same
package, byte for byte.

A licence of Tundelca itself is its owner's to choose: a file LICENSE at the top of the repository becomes the package's
copyright file. Needs Python 3.9 and dpkg-deb.
"""
import argparse
import glob
import gzip
import hashlib
import os
import re
import shutil
import subprocess
import sys
import tempfile
import time

sys.dont_write_bytecode = True
import manual  # noqa: E402

HERE = os.path.dirname(os.path.abspath(__file__))
TOP = os.path.dirname(HERE)
NAME, PROGRAMS = "tundelca", ("tundelca", "role_lab")
STARTED = {"tundelca_ctl.py": "tundelca-ctl", "tundelca_gateway.py": "tundelca-gateway"}  # tools by their commands
ETC = (NAME, "tundelca-gateway")  # folders of what nodes and the gateway are told
UNITS = ("tundelca@.service", "tundelca-gateway@.service")
PAGES = {  # of docs/: the man page and its section, and what it is about
    "OPERATIONS.md": ("tundelca", 8, "run nodes of a role registry that tolerates lying nodes"),
    "DECIDING.md": ("tundelca-gateway", 8, "a decision point before a node, asked over HTTP"),
    "CLIENTS.md": ("tundelca-clients", 7, "what a service says to a node, and cluster files"),
    "ACCESS.md": ("tundelca-access", 7, "the rules of access"),
    "PROTOCOL.md": ("tundelca-protocol", 7, "how nodes agree"),
    "FORMATS.md": ("tundelca-formats", 7, "frames, journals and codes"),
    "SCRIPTS.md": ("role_lab", 1, "a whole cluster by a script, as a laboratory"),
}
DESCRIPTION = """\
role registry that tolerates lying nodes
 Tundelca answers "may this user do that?" where no single server is trusted to
 answer. Each role belongs to one of n nodes, run by different parties; fewer
 than a third of them may fail or lie in any way, and the others still give the
 same, right answers. The rules are those of Core RBAC, and the code is proved
 to keep them."""
NO_LICENCE = """\
No licence has been chosen for Tundelca yet: its owner keeps all rights. A file LICENSE at the top of the repository
stands here once there is one.
"""


def said(*words, **more):
    """What a program says."""
    return subprocess.run(words, check=True, stdout=subprocess.PIPE, text=True, timeout=60, **more).stdout.strip()


def version_of(program):
    """The version in the sources, which the program has to have."""
    with open(os.path.join(TOP, "crates", "tundelca", "src", "version.rt"), encoding="utf-8") as file:
        version = re.search(r'VERSION: &str = "([^"]+)"', file.read()).group(1)
    told = said(program, "--version")
    if version not in re.split("[ ,\n]+", told):
        sys.exit(f"deb: the sources are of version {version}, and {program} says {told!r}: build it anew")
    return version, told


def put(root, path, content, mode=0o644):
    """Writes a file of the package."""
    path = os.path.join(root, path)
    os.makedirs(os.path.dirname(path), exist_ok=True)
    with open(path, "wb") as file:
        file.write(content if isinstance(content, bytes) else content.encode())
    os.chmod(path, mode)


def read(path):
    with open(path, "rb") as file:
        return file.read()


def libc_of(programs):
    """The least version of the C library that the programs ask for."""
    asked = {tuple(map(int, found.split(b"."))) for path in programs
             for found in re.findall(rb"GLIBC_(\d+\.\d+)", read(path))}
    return ".".join(map(str, max(asked)))


def put_tools(root):
    """The operator's tool, the client that it uses, and the gateway."""
    tools = os.path.join(TOP, "tools")
    for path in sorted(glob.glob(os.path.join(tools, "**", "*"), recursive=True)):
        if os.path.isfile(path) and "__pycache__" not in path:
            name = os.path.relpath(path, tools)
            put(root, f"usr/lib/tundelca/{name}", read(path), 0o755 if name in STARTED else 0o644)
    put(root, f"usr/share/doc/{NAME}/NEWS.Debian.gz", gzip.compress(read(os.path.join(HERE, "NEWS")), 9, mtime=0))
    for name, command in STARTED.items():
        os.symlink(f"../lib/tundelca/{name}", os.path.join(root, "usr/bin", command))
    modules = os.path.join(root, "usr/lib/python3/dist-packages")  # where Debian's Python finds `import tundelca`
    os.makedirs(modules)
    os.symlink("../../tundelca/tundelca.py", os.path.join(modules, "tundelca.py"))


def put_manuals(root, version, date):
    """The man pages, compressed."""
    names = {page: f"{name}({section})" for page, (name, section, _) in PAGES.items()}
    pages = []
    for page, (name, section, about) in PAGES.items():
        one = manual.Page(name, section, about, version, date, names)
        one.markdown(read(os.path.join(TOP, "docs", page)).decode())
        pages.append((name, section, one))
    tool = os.path.join(root, "usr/lib/tundelca/tundelca_ctl.py")
    one = manual.Page("tundelca-ctl", 1, "the operator's tool", version, date, names)
    one.lines.append(".SH DESCRIPTION")
    wide = {**os.environ, "COLUMNS": "80"}
    helps = said(sys.executable, tool, "--help", env=wide)
    one.code(helps.splitlines())
    for step in re.findall(r"^  ([a-z][a-z-]*)  ", helps, re.MULTILINE):
        one.lines.append(f".SS {manual.plain(step, True)}")
        one.code(said(sys.executable, tool, step, "--help", env=wide).splitlines())
    for name, section, one in [*pages, ("tundelca-ctl", 1, one)]:
        put(root, f"usr/share/man/man{section}/{name}.{section}.gz", gzip.compress(one.text().encode(), 9, mtime=0))


def put_licences(root):
    """What Tundelca's licence is, and those of the kit's crates that the programs are made of."""
    own = os.path.join(TOP, "LICENSE")
    put(root, f"usr/share/doc/{NAME}/copyright", read(own) if os.path.exists(own) else NO_LICENCE)
    kit = os.path.join(os.path.dirname(said("rt", "doc")), "rattle")
    needs = {}
    with open(os.path.join(TOP, "crates.txt"), encoding="utf-8") as file:
        for name, below in re.findall(r"^(\w+)[^:\n]*:(.*)$", file.read(), re.MULTILINE):
            needs[name] = below.split()
    for crate in sorted({below for program in PROGRAMS for below in needs[program]} - set(needs)):
        for path in sorted(glob.glob(os.path.join(kit, crate, "LICENSE*"))):
            put(root, f"usr/share/doc/{NAME}/licences/{crate}/{os.path.basename(path)}", read(path))


def put_built(root, told, programs):
    """What was built from what, and the programs' checksums."""
    dirt = " with changes that are not committed" if said("git", "-C", TOP, "status", "--porcelain") else ""
    commit = said("git", "-C", TOP, "rev-parse", "HEAD")
    sums = "".join(f"{hashlib.sha256(read(path)).hexdigest()}  /usr/bin/{name}\n" for name, path in programs.items())
    put(root, f"usr/share/doc/{NAME}/BUILT", f"commit {commit}{dirt}\nkit {said('rt', 'version')}\n{told}\n{sums}")


def files_of(root):
    """The package's own files, without what is for dpkg."""
    for folder, _, names in sorted(os.walk(root)):
        for name in sorted(names):
            path = os.path.join(folder, name)
            if os.path.isfile(path) and not os.path.islink(path) and "/DEBIAN" not in folder:
                yield os.path.relpath(path, root)


def put_control(root, version, programs):
    """What dpkg is told."""
    size = sum(os.path.getsize(os.path.join(root, path)) for path in files_of(root)) // 1024 + 1
    maintainer = os.environ.get("DEBFULLNAME", "the owner of this repository")
    address = os.environ.get("DEBEMAIL", "root@localhost")
    put(root, "DEBIAN/md5sums", "".join(
        f"{hashlib.md5(read(os.path.join(root, path))).hexdigest()}  {path}\n" for path in files_of(root)))
    for script in ("postinst", "prerm"):
        put(root, f"DEBIAN/{script}", read(os.path.join(HERE, script)), 0o755)
    put(root, "DEBIAN/control", f"""Package: {NAME}
Version: {version}
Section: net
Priority: optional
Architecture: amd64
Depends: libc6 (>= {libc_of(programs.values())}), python3 (>= 3.9), passwd
Recommends: python3-tornado (>= 6.1)
Maintainer: {maintainer} <{address}>
Installed-Size: {size}
Description: {DESCRIPTION}
""")


def main():
    parser = argparse.ArgumentParser(description=__doc__, formatter_class=argparse.RawDescriptionHelpFormatter)
    parser.add_argument("--to", default=".", metavar="FOLDER", help="where the package is written (here)")
    parser.add_argument("programs", nargs="*", metavar="PROGRAM", help="the built tundelca and role_lab")
    given = parser.parse_args()
    if shutil.which("dpkg-deb") is None:
        sys.exit("deb: there is no dpkg-deb here")
    paths = given.programs or [os.path.join(TOP, "crates", name, "out", name) for name in PROGRAMS]
    programs = dict(zip(PROGRAMS, map(os.path.abspath, paths)))
    missing = [path for path in programs.values() if not os.path.exists(path)]
    if len(paths) != len(PROGRAMS) or missing:
        sys.exit(f"deb: {' and '.join(missing) or 'two programs'} must be there: `rt run` in their crates builds them")
    version, told = version_of(programs["tundelca"])
    moment = said("git", "-C", TOP, "log", "-1", "--format=%ct")
    date = time.strftime("%Y-%m-%d", time.gmtime(int(moment)))
    package = os.path.abspath(os.path.join(given.to, f"{NAME}_{version}_amd64.deb"))
    with tempfile.TemporaryDirectory(prefix="tundelca-") as scratch:
        root = os.path.join(scratch, "root")
        for name, path in programs.items():
            put(root, f"usr/bin/{name}", read(path), 0o755)
        put_tools(root)
        for unit in UNITS:
            put(root, f"usr/lib/systemd/system/{unit}", read(os.path.join(HERE, unit)))
        put_manuals(root, version, date)
        put_licences(root)
        put_built(root, told, programs)
        for folder in ETC:
            os.makedirs(os.path.join(root, "etc", folder))
        put_control(root, version, programs)
        for path, folders, _ in os.walk(root):
            os.chmod(path, 0o755)
        for folder in ETC:
            os.chmod(os.path.join(root, "etc", folder), 0o750)
        environment = {**os.environ, "SOURCE_DATE_EPOCH": moment}
        said("dpkg-deb", "--root-owner-group", "-Zxz", "--build", root, package, env=environment)
    with open(package + ".sha256", "w", encoding="ascii") as file:
        file.write(f"{hashlib.sha256(read(package)).hexdigest()}  {os.path.basename(package)}\n")
    print(package)


if __name__ == "__main__":
    main()
