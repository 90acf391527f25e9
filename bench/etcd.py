"""Members of one etcd cluster as processes on 127.0.0.1, and a client that costs little. For bench/beside.py."""
import json
import os
import shutil
import socket
import struct
import subprocess
import time
import urllib.error
import urllib.request

from cluster import PATIENCE, tundelca

PUT, RANGE = b"/etcdserverpb.KV/Put", b"/etcdserverpb.KV/Range"
DATA, HEADERS, RESET, SETTINGS, PING, GO_AWAY, WINDOW_UPDATE = 0, 1, 3, 4, 6, 7, 8
END_STREAM, END_HEADERS, ACK = 1, 4, 1
WIDE = 2**31 - 1
FIRST_WINDOW = 65_535  # bytes that a peer takes before it says otherwise


class Etcd:
    """So many members, each with a folder of its own; `folder` is on the file system that is measured."""

    def __init__(self, folder, members=3, environment=None):
        self.program, self.running, self.folder = shutil.which("etcd"), [], folder
        ports = tundelca.free_ports(2 * members)
        self.clients, peers = ports[:members], ports[members:]
        self.log = open(os.path.join(folder, "log"), "wb")
        try:
            for me in range(members):
                self.running.append(subprocess.Popen(
                    self.words(me, peers), env=environment, stdin=subprocess.DEVNULL, stdout=self.log, stderr=self.log))
            self.leader = self.wait()
        except BaseException:
            self.end()
            raise

    def words(self, me, peers):
        url = "http://127.0.0.1:{}".format
        members = ",".join(f"m{k}={url(port)}" for k, port in enumerate(peers))
        return [self.program, "--name", f"m{me}", "--data-dir", os.path.join(self.folder, f"m{me}"),
                "--listen-client-urls", url(self.clients[me]), "--advertise-client-urls", url(self.clients[me]),
                "--listen-peer-urls", url(peers[me]), "--initial-advertise-peer-urls", url(peers[me]),
                "--initial-cluster", members, "--initial-cluster-state", "new", "--log-level", "error"]

    def wait(self):
        """Waits until all members know the leader. Which it is."""
        end = time.monotonic() + PATIENCE
        while True:
            try:
                said = [self.status(port) for port in self.clients]
                leaders = {one.get("leader") for one in said}
                if len(leaders) == 1 and None not in leaders:
                    return [one["header"]["member_id"] for one in said].index(leaders.pop())
            except (OSError, urllib.error.URLError):
                pass
            if time.monotonic() > end or any(one.poll() is not None for one in self.running):
                raise RuntimeError("etcd doesn't begin")
            time.sleep(0.05)

    @staticmethod
    def status(port):
        asked = urllib.request.Request(f"http://127.0.0.1:{port}/v3/maintenance/status", b"{}")
        with urllib.request.urlopen(asked, timeout=PATIENCE) as answer:
            return json.load(answer)

    def end(self):
        for one in self.running:
            one.kill()
        for one in self.running:
            one.wait()
        self.log.close()


def field(number, value):
    """A field of a protocol buffer, of bytes."""
    return bytes([number << 3 | 2, len(value)]) + value


def put_request(key, value):
    return field(1, key) + field(2, value)


def range_request(key, is_serializable):
    return field(1, key) + (b"\x38\x01" if is_serializable else b"")


def head(kind, flags, stream, length):
    return struct.pack(">I", length)[1:] + bytes([kind, flags]) + struct.pack(">I", stream)


def text(name, value):
    """A header that the peer remembers, as HPACK has it; the name is one of its own list."""
    return bytes([0x40 | name, len(value)]) + value


class Calls:
    """Calls of one method of a member through one connection: HTTP/2 and gRPC as they are on the wire.

    What is written again and again is made once, and of an answer no more is read than that there is one, so that the
    time is the member's.
    """

    def __init__(self, port, method):
        self.socket = socket.create_connection((tundelca.LOOPBACK, port), PATIENCE)
        self.socket.setsockopt(socket.IPPROTO_TCP, socket.TCP_NODELAY, 1)
        settings = struct.pack(">HIHI", 2, 0, 4, WIDE)
        self.socket.sendall(
            b"PRI * HTTP/2.0\r\n\r\nSM\r\n\r\n" + head(SETTINGS, 0, 0, len(settings)) + settings
            + head(WINDOW_UPDATE, 0, 0, 4) + struct.pack(">I", WIDE - FIRST_WINDOW))
        # method POST and scheme http, then what the first call has the member remember, and the others name
        self.first = (b"\x83\x86" + text(4, method) + text(1, b"127.0.0.1")
                      + text(31, b"application/grpc") + b"\x40\x02te\x08trailers")
        self.others = b"\x83\x86\xc1\xc0\xbf\xbe"
        self.stream, self.ahead, self.window, self.answered = 1, b"", FIRST_WINDOW, set()

    def request(self, message):
        """The frames of a call."""
        block, self.first = self.first or self.others, b""
        body = b"\0" + struct.pack(">I", len(message)) + message
        self.window -= len(body)
        if self.window < 0:
            raise RuntimeError("more is written than etcd takes")
        stream, self.stream = self.stream, self.stream + 2
        return head(HEADERS, END_HEADERS, stream, len(block)) + block + head(DATA, END_STREAM, stream, len(body)) + body

    def send(self, messages):
        self.socket.sendall(b"".join([self.request(message) for message in messages]))

    def take(self):
        """Waits for what comes. How many calls were answered by it."""
        came = self.socket.recv(1 << 18)
        if not came:
            raise RuntimeError("etcd closed a connection")
        self.ahead += came
        at, end, done = 0, len(self.ahead), 0
        while end - at >= 9:
            length, kind, flags = int.from_bytes(self.ahead[at:at + 3], "big"), self.ahead[at + 3], self.ahead[at + 4]
            if end - at < 9 + length:
                break
            if kind == DATA and length > 5:
                self.answered.add(self.ahead[at + 5:at + 9])
            elif kind == HEADERS and flags & END_STREAM:
                self.answered.remove(self.ahead[at + 5:at + 9])  # none is there where the call has failed
                done += 1
            elif kind not in (DATA, HEADERS):
                self.control(kind, flags, self.ahead[at:at + 9 + length])
            at += 9 + length
        self.ahead = self.ahead[at:]
        return done

    def control(self, kind, flags, frame):
        """What isn't an answer."""
        if kind == WINDOW_UPDATE and frame[5:9] == b"\0\0\0\0":
            self.window += int.from_bytes(frame[9:13], "big")
        elif kind in (SETTINGS, PING) and not flags & ACK:
            body = frame[9:] if kind == PING else b""
            self.socket.sendall(head(kind, ACK, 0, len(body)) + body)
        elif kind == GO_AWAY or kind == RESET and frame[9:] != b"\0\0\0\0":  # 0 where the call was answered early
            raise RuntimeError(f"etcd gave a call up: frame of kind {kind}")

    def call(self, message):
        self.send([message])
        while not self.take():
            pass

    def close(self):
        self.socket.close()
