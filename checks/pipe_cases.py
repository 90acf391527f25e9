"""Programs over standard input and output, whose words, texts and devices are not as they should be. Cases of run_all.

A device goes wrong by checks/mishaps.c: `read` or `write` of standard input, of a cluster file, or of standard output.
"""
import os
import socket
import subprocess
import tempfile

from cluster import SEND, TOP, Cluster, tundelca
from lives import compiled
from runner import Case, judge, wait_until

PATIENCE = 60  # seconds, for a run
WORDS, TEXT, DEVICE = 2, 3, 4  # statuses
OPENING = b'{"cluster":1,"f":0,"me":0,"n":1,"roles":[[2,0]]}\n'
STOP, STOPPED = b'{"op":"stop"}', b'{"stopped":true}\n'
INTERRUPTED = 1_024  # times in a row that a call is made again
MOST_CALLS = 1_000  # more than a run here makes


def run(program, given=b"", words=(), **variables):
    """A run of a program, which is asked this."""
    return subprocess.run([program, *words], input=given, capture_output=True, timeout=PATIENCE,
                          env={**os.environ, **variables})


def refused(ran, status, told):
    """The run ended with this status, wrote nothing, and said this of it on standard error."""
    came = (ran.returncode, ran.stdout, ran.stderr.decode())
    judge(came == (status, b"", told), f"due {status} and {told!r}, came {came}")


def words_of(daemon):
    """Words that ask for a pipe do so; those that the program hasn't are refused, help among them."""
    for words in ([], ["--"]):
        ran = run(daemon, OPENING + STOP, words)
        judge((ran.returncode, ran.stdout, ran.stderr) == (0, STOPPED, b""), f"{words}: {ran}")
    others = (["x"], ["--help"], ["serve"], ["--", "serve", "--cluster", "a"])
    for words in others:
        refused(run(daemon, OPENING, words), WORDS, "role_daemon: words\n")
    refused(run(daemon, OPENING, ["serve", "--cluster", "/nowhere"]), TEXT, "role_daemon: cluster file\n")
    return f"{len(others) + 1} refused"


def text(members):
    """A cluster text without its braces."""
    return b"{%s}" % members.encode()


SIZES = '"cluster":1,"f":0,"me":0,"n":1,'
PIPE_TEXTS = [
    (b"", "U1 NotJson"),
    (b"[]", "U2 NotObject"),
    (text('"cluster":1,"f":1,"n":1'), "U3 Missing me"),
    (text('"cluster":1,"f":0,"me":0,"n":1'), "U3 Missing roles"),
    (text('"cluster":1,"f":1,"me":0,"n":1,"roles":[]'), "Q3 TooManyLiars"),
    (text('"cluster":1,"f":0,"me":0,"n":2,"roles":[]'), "U4 OutOfRange n"),
    (text('"cluster":1,"f":0,"me":1,"n":1,"roles":[]'), "U4 OutOfRange me"),
    (text(SIZES + '"roles":[[2,1]]'), "C1 NoSuchNode"),
    (text(SIZES + '"roles":[[2,0],[2,0]]'), "C2 Repeated"),
]
SERVER_TEXTS = [
    (text(SIZES + '"roles":[]'), "U3 Missing keys"),
    (text('"client":9,"keys":[],"nodes":[1],' + SIZES + '"roles":[]'), "U4 OutOfRange keys"),
    (text('"client":9,"keys":[],"nodes":[0],' + SIZES + '"roles":[]'), "U4 OutOfRange nodes"),
]


def texts(daemon):
    """Each cluster text is refused for the first fault that it has, as a pipe's first line or as a server's file."""
    for given, told in PIPE_TEXTS:
        refused(run(daemon, given), TEXT, f"role_daemon: {told}\n")
        refused(run(daemon, given + b"\n" + STOP), TEXT, f"role_daemon: {told}\n")
    with tempfile.TemporaryDirectory(prefix="tundelca-") as folder:
        path = os.path.join(folder, "cluster.json")
        for given, told in SERVER_TEXTS:
            with open(path, "wb") as file:
                file.write(given)
            refused(run(daemon, words=["serve", "--cluster", path]), TEXT, f"role_daemon: {told}\n")
    judge(run(daemon, OPENING).returncode == 0, "a good text is refused")
    return f"{len(PIPE_TEXTS) + len(SERVER_TEXTS)} refused"


def keys_and_ports(daemon):
    """A server's keys may be in upper case, and its port the greatest: the frame under such a key counts there."""
    greatest = 65_535
    with Cluster(daemon, 4, 1, running=()) as cluster:
        cluster.nodes[1] = greatest
        cluster.rewrite(1, nodes=cluster.nodes, keys=[key.hex().upper() for key in cluster.keys[1]])
        cluster.start(1)
        with cluster.wait([1]).client(1) as node, cluster.link(1) as link:
            link.sendall(cluster.frame(0, 1, SEND, 0, 0))
            wait_until(lambda: node.ask("again", owner=0, place=0) == {"again": 1}, "the frame doesn't count")
        judge(cluster.stop(1) == 0, "it ended otherwise")
    return "a frame counts"


LINES = [
    ("nope", '{"error":"J1 NotJson"}'),
    ("[1]", '{"error":"J2 NotObject"}'),
    ("{}", '{"error":"J3 NoOp"}'),
    ('{"op":"fly"}', '{"error":"J4 UnknownOp"}'),
    ('{"op":"open"}', '{"error":"J5 Missing","name":"user"}'),
    ('{"op":"open","user":4294967296}', '{"error":"J6 OutOfRange","name":"user"}'),
    ('{"op":"open","user":4294967295,"x":null}', '{"session":1}'),
    ('{"op":"reach","owner":1}', '{"error":"J6 OutOfRange","name":"owner"}'),
    ('{"op":"again","owner":0,"place":0}', '{"again":0}'),
    ('{"op":"grant","object":9,"operation":5,"role":3}', '{"error":"F1 NotMine"}'),
    ("a" * 20_000, '{"error":"J1 NotJson"}'),
    ('{"op":"stop"}', '{"stopped":true}'),
]


def lines(daemon):
    """Each line of a pipe has its answer, one that is too long too, up to the stop; behind that nothing is answered."""
    given = OPENING + "".join(f"{line}\n" for line, _ in LINES).encode() + b"nope\n"
    ran = run(daemon, given)
    due = "".join(f"{answer}\n" for _, answer in LINES).encode()
    judge((ran.returncode, ran.stdout, ran.stderr) == (0, due, b""), f"came {ran}")
    return f"{len(LINES)} lines"


def answered_before_more(daemon):
    """An answer is written before the next line is waited for, though that has begun, or is too long already."""
    for begun in (b"", b'{"op":', b'{"op":' * 1_000):
        with subprocess.Popen([daemon], stdin=subprocess.PIPE, stdout=subprocess.PIPE) as pipe:
            pipe.stdin.write(OPENING + b'{"op":"assign","role":2,"user":7}\n' + begun)
            pipe.stdin.flush()
            came = pipe.stdout.readline()
            judge(came == b'{"issued":0,"reach":1}\n', f"came {came!r}")
            pipe.stdin.close()
            pipe.wait(PATIENCE)
    return "with nothing behind it, a part of a line, and a long one"


BAD_SCRIPTS = [  # a script, the number of its first bad line, and what is written before
    (b"cluster 3 1\n", 1, b""),
    (b"cluster 129 42\n", 1, b""),
    (b"\n", 1, b""),
    (b"role 2\n", 1, b""),
    (b"cluster 4 1\nliar 3\nlie send 3 1 0 0 assign 7 2\n", 3, b"sizes 3 2 3\nok\n"),
    (b"cluster 4 1\nliar 3\nlie ready 3 1 0 1048575 assign 7 2\nlie ready 3 1 0 1048576 assign 7 2\n", 4,
     b"sizes 3 2 3\nok\nS1 Beyond 1048575 64\n"),
    (b"cluster 4 1\nbytes 1 0\n", 2, b"sizes 3 2 3\n"),
    (b"cluster 4 1\nbytes 1 \n", 2, b"sizes 3 2 3\n"),
    (b"cluster 4 1\nbytes 4 -\n", 2, b"sizes 3 2 3\n"),
]


def bad_scripts(lab):
    """A script ends at its first bad line, whose number is told; what was due before it is written."""
    judge(run(lab).stdout == b"", "an empty script has an answer")
    for script, bad, due in BAD_SCRIPTS:
        ran = run(lab, script)
        came = (ran.returncode, ran.stdout, ran.stderr)
        told = f"role_lab: bad script, line {bad}\n".encode()
        judge(came == (TEXT, due, told), f"{script!r}: due {due!r} and {told!r}, came {came}")
    return f"{len(BAD_SCRIPTS)} scripts"


class Device:
    """A program on an input, of whose calls some go wrong."""

    def __init__(self, program, given, due, folder, words=()):
        self.program, self.given, self.due, self.words, self.folder = program, given, due, words, folder
        self.library, self.mark = compiled("checks/mishaps.c", folder), os.path.join(folder, "mark")
        self.whole, self.cut = 0, DEVICE  # the statuses where all went well, and where a device has failed

    def run(self, of, how, first, calls=1, short=""):
        """Runs it with so many reads or writes from one on gone wrong, where those of `short` move a byte each.
        Whether there was such a call, and whether the run came to its end."""
        with open(os.path.join(self.folder, "given"), "w+b") as file:
            file.write(self.given)
            file.flush()
            file.seek(0)
            ran = subprocess.run(
                [self.program, *self.words], stdin=file, capture_output=True, timeout=PATIENCE,
                env={**os.environ, "LD_PRELOAD": self.library, "MISHAP_OF": of, "MISHAP": how, "MISHAP_MARK": self.mark,
                     "MISHAP_FIRST": str(first), "MISHAP_CALLS": str(calls), "MISHAP_SHORT": short})
        is_there = os.path.exists(self.mark)
        if is_there:
            os.remove(self.mark)
        is_whole = ran.returncode == self.whole and ran.stdout == self.due
        is_cut = ran.returncode == self.cut and self.due.startswith(ran.stdout)
        judge(is_whole or is_cut, f"{how} {of} {first}: status {ran.returncode}, wrote {ran.stdout[-80:]!r}")
        return is_there, is_whole

    def each(self, of, how, calls=1, short="", goes_on=False):
        """Has the calls from each one on go wrong. How many there are, each of which ends the run, or none does."""
        for first in range(MOST_CALLS):
            is_there, is_whole = self.run(of, how, first, calls, short)
            judge(is_whole == (goes_on or not is_there), f"{how} {of} {first}: {'went on' if is_whole else 'ended'}")
            if not is_there:
                return first
        raise AssertionError(f"more than {MOST_CALLS} calls")

    def few(self, of, how, calls, goes_on, firsts=(0, 1, 9, 40)):
        """The same from some calls on, of one byte each."""
        for first in firsts:
            came = self.run(of, how, first, calls, "read write")
            judge(came == (True, goes_on), f"{how} {of} {first}: {came}")


def stored(*names):
    """An input, and what is due for it, of these files below the top."""
    texts_of = []
    for name in names:
        with open(os.path.join(TOP, name), "rb") as file:
            texts_of.append(file.read())
    return texts_of


def pipe():
    """The input of the pipe's stored run, and what is due for it."""
    return stored("crates/role_daemon/stdin", "crates/role_daemon/stdout")


def whole_blocks(device):
    """Each read and write in turn fails or takes nothing, which ends the run, or is interrupted 1,024 times."""
    counts = [device.each("read", "fail"), device.each("write", "fail"), device.each("write", "nothing"),
              device.each("read", "interrupt", INTERRUPTED, goes_on=True),
              device.each("write", "interrupt", INTERRUPTED, goes_on=True)]
    judge(min(counts) > 0, f"calls {counts}")
    return counts


def byte_by_byte(device):
    """The same where each call moves a byte; once more interruptions in a row end the run."""
    counts = [device.each(of, how, short="read write")
              for of, how in [("read", "fail"), ("write", "fail"), ("write", "nothing")]]
    judge(counts == [len(device.given) + 1, len(device.due), len(device.due)], f"calls of a byte {counts}")
    for of in ("read", "write"):
        device.few(of, "interrupt", INTERRUPTED, True)
        device.few(of, "interrupt", INTERRUPTED + 1, False)
    return counts


def devices(program, given, due):
    """A call that fails ends the run with status 4 and a prefix of the text that is due; calls of a byte each, and up to
    1,024 interruptions in a row, it goes through."""
    with tempfile.TemporaryDirectory(prefix="tundelca-") as folder:
        device = Device(program, given, due, folder)
        return f"calls {whole_blocks(device)}, and of a byte {byte_by_byte(device)}"


def devices_of_pipe(daemon):
    """The pipe, on its stored input."""
    return devices(daemon, *pipe())


def devices_of_scripts(lab):
    """Two scripts of a cluster."""
    scripts = ("examples/lab/one_silent_liar", "examples/lab/four_correct_nodes")
    return "; ".join(devices(lab, *stored(script, f"{script}.stdout")) for script in scripts)


def second_read(daemon):
    """Behind any bytes the second read fails: the pipe ends with status 4, and has written a prefix."""
    given, due = pipe()
    with tempfile.TemporaryDirectory(prefix="tundelca-") as folder:
        device = Device(daemon, given, due, folder)
        for count in range(1, len(given) + 1):
            device.given = given[:count]
            came = device.run("read", "fail", 1)
            judge(came == (True, False), f"behind {count} bytes: {came}")
    return f"{len(given)} fronts"


def cluster_file(daemon):
    """Each read of a cluster file in turn fails, and it is unread; it is read as patiently as all else. Where it is
    read whole the node finds its port for clients taken."""
    with Cluster(daemon, 1, 0, running=()) as cluster, socket.socket() as held:
        held.bind((tundelca.LOOPBACK, cluster.clients[0]))
        held.listen(1)
        with open(cluster.paths[0], "rb") as file:
            length = len(file.read())
        device = Device(daemon, b"", b"", cluster.folder.name, ["serve", "--cluster", cluster.paths[0]])
        device.whole, device.cut = DEVICE, TEXT
        reads = device.each("read", "fail", short="read")
        judge(reads == length + 1, f"{reads} reads of {length} bytes")
        for calls, goes_on in [(INTERRUPTED, True), (INTERRUPTED + 1, False)]:
            device.few("read", "interrupt", calls, goes_on, (0, 100))
    return f"{reads} reads"


def cases(given):
    """The cases, each with its name."""
    tried = [
        ("words, role_daemon", words_of, "role_daemon"),
        ("cluster texts, role_daemon", texts, "role_daemon"),
        ("a cluster text's keys and ports, role_daemon", keys_and_ports, "role_daemon"),
        ("a pipe's lines, role_daemon", lines, "role_daemon"),
        ("answered before more is read, role_daemon", answered_before_more, "role_daemon"),
        ("devices, role_daemon", devices_of_pipe, "role_daemon"),
        ("a second read that fails, role_daemon", second_read, "role_daemon"),
        ("a cluster file's reads, role_daemon", cluster_file, "role_daemon"),
        ("bad scripts, role_lab", bad_scripts, "role_lab"),
        ("devices, role_lab", devices_of_scripts, "role_lab"),
    ]
    return [Case(name, lambda case=case, program=program: case(given.program(program)))
            for name, case, program in tried]
