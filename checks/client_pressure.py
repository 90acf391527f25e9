"""What `role_daemon serve` does under the pressure of clients. Cases of checks/pressure.py."""
import contextlib
import json
import signal
import socket
import threading
import time
from statistics import median

from cluster import PATIENCE, Cluster
from loads import Load, ask_on
from runner import Failed, wait_until
from timed_client import SOON, Client, wait_soon

# Limits that a machine with five times as many busy processes as cores kept. At rest others' commands beside listings
# take 5 to 6 ms (the slowest 30), a new client waits 0.3 ms.
MIDDLE, SLOWEST = 5, 1_000  # milliseconds in which others' commands are delivered beside listings
NEW = 12  # milliseconds until a new client is answered, in the median; asked every 15 ms, the listener took 15
DEAF = 8  # seconds: one until its answers are given up, two in which it is listened to, and what this script takes


def few_descriptors(program):
    """One client and 9 descriptors, then stop"""
    with Cluster(program, 1, descriptors=9) as cluster:
        client = Client(cluster, 0)
        more = [cluster.connect(0) for _ in range(6)]
        client.ask(op="open", user=7)
        begin = time.time()
        client.ask(op="stop")
        status = cluster.running[0].wait(PATIENCE)
        took = time.time() - begin
        for one in more:
            one.close()
        if status != 0 or took > SOON:
            raise Failed(f"status {status} after {took:.2f} s")
        return f"status 0 after {took:.3f} s"


def stop_beside_a_slow_reader(program):
    """A client that reads its 3,000 listings five bytes a second, and a stop"""
    with Cluster(program, 1) as cluster:
        client, slow = Client(cluster, 0), Client(cluster, 0)
        for user in range(500):
            client.ask(op="assign", user=user, role=2)
        slow.socket.settimeout(0.1)
        asked = b'{"op":"assigned_users","role":2}\n' * 3000
        with contextlib.suppress(socket.timeout):
            slow.socket.sendall(asked)
        slow.socket.settimeout(PATIENCE)
        client.ask(op="stop")
        begin = time.time()
        while cluster.running[0].poll() is None:
            if time.time() > begin + PATIENCE:
                raise Failed(f"the node is there {PATIENCE} s after stop")
            with contextlib.suppress(ConnectionError):
                slow.socket.recv(1)
            time.sleep(0.2)
        status, took = cluster.running[0].wait(), time.time() - begin
        if status != 0 or took > SOON:
            raise Failed(f"status {status} after {took:.2f} s")
        return f"status 0 after {took:.2f} s"


def publish(client, owner, count):
    """Has a node publish so many commands of its own role, each about another user."""
    done, end = 0, time.time() + 60
    while done < count:
        if time.time() > end:
            raise Failed(f"{done} of {count} commands in a minute")
        room = min(64 - (done - client.ask(op="reach", owner=owner)["reach"]), 32, count - done)
        lines = [b'{"op":"assign","user":%d,"role":%d}\n' % (done + k, 2 + owner) for k in range(room)]
        client.socket.sendall(b"".join(lines))
        done += ["issued" in json.loads(client.lines.readline()) for _ in lines].count(True)


def memory(process):
    """What the process has in memory, in MB."""
    with open(f"/proc/{process.pid}/status") as file:
        return next(int(line.split()[1]) for line in file if line.startswith("VmRSS")) / 1024


def listings_that_nobody_reads(program):
    """15 clients that ask for 32 listings of 100,000 users each, and read nothing"""
    with Cluster(program, 1) as cluster:
        client, asked = Client(cluster, 0), b'{"op":"assigned_users","role":2}\n'
        publish(client, 0, 100_000)
        client.socket.sendall(asked)
        size, most = len(client.lines.readline()), memory(cluster.running[0])
        deaf = [cluster.connect(0) for _ in range(15)]
        for one in deaf:
            one.sendall(asked * 32)
        end = time.time() + 4
        while time.time() < end:
            client.ask(op="check", session=1, user=1, operation=1, object=1)
            most = max(most, memory(cluster.running[0]))
            time.sleep(0.005)
        for one in deaf:
            one.close()
        if most > 60:
            raise Failed(f"{most:.0f} MB, a listing is {size:,} bytes")
        return f"{most:.0f} MB at most, a listing is {size:,} bytes; the slowest check in {client.slowest:.3f} s"


def listings_hold_up_nobody(program):
    """14 clients of node 1 that ask for one listing of 30,000 users after another, while node 2 issues commands"""
    with Cluster(program, 4, 1, owners=4) as cluster:
        clients = [Client(cluster, me) for me in range(4)]
        publish(clients[0], 0, 30_000)
        wait_until(lambda: clients[1].ask(op="reach", owner=0)["reach"] == 30_000, "node 1 has not all of them")

        def times(first):
            took = []
            for k in range(first, first + 100):
                begin = time.time()
                clients[2].ask(op="assign", user=k, role=4)
                wait_soon(lambda: clients[1].ask(op="reach", owner=2)["reach"] > k, f"command {k} has not come")
                took.append(1000 * (time.time() - begin))
            return median(took), max(took)

        alone, beside = [], []
        for first in range(0, 600, 200):
            alone.append(times(first))
            with Load(ask_on, cluster.clients[1], 14, b'{"op":"assigned_users","role":2}\n' * 64) as load:
                time.sleep(0.5)
                beside.append(times(first + 100))
                came = load.told()
        middle, most = (median(of) for of in zip(*beside))
        by_itself, slowest = (median(of) for of in zip(*alone))
        text = (f"{middle:.1f} ms in the median, {most:.0f} at most; {by_itself:.1f} and {slowest:.0f} alone; "
                f"{came} in the last part")
        if middle > MIDDLE + 10 * by_itself or most > SLOWEST:
            raise Failed(text)
        return text


def a_connection_for_each_question(program):
    """15 clients at once that make a new connection for each of 60 questions"""
    with Cluster(program, 1) as cluster:
        Client(cluster, 0)
        took, refused = [], []

        def ask_on():
            for _ in range(60):
                begin = time.time()
                try:
                    one = Client(cluster, 0)
                    one.ask(op="reach", owner=0)
                    one.socket.close()
                    took.append(1000 * (time.time() - begin))
                except (Failed, OSError) as fault:
                    refused.append(fault)

        asking = [threading.Thread(target=ask_on) for _ in range(15)]
        for one in asking:
            one.start()
        for one in asking:
            one.join()
        alone = []
        for _ in range(200):
            begin = time.time()
            one = Client(cluster, 0)
            one.ask(op="reach", owner=0)
            alone.append(1000 * (time.time() - begin))
            one.socket.close()
        text = f"{len(refused)} refused; {median(alone):.2f} ms in the median for one, {median(took):.1f} beside others"
        if refused or median(alone) > NEW:
            raise Failed(text)
        return text


def sixteen_idle_clients(program):
    """16 clients that say nothing, a seventeenth, and a signal"""
    with Cluster(program, 1) as cluster:
        held = [Client(cluster, 0) for _ in range(16)]
        for one in held:
            one.ask(op="open", user=7)
        begin = time.time()
        last = Client(cluster, 0)
        with contextlib.suppress(ConnectionError):
            if last.socket.recv(1):
                raise Failed("the seventeenth was served")
        took = time.time() - begin
        held[0].socket.shutdown(socket.SHUT_RDWR)
        Client(cluster, 0).ask(op="open", user=7)
        cluster.running[0].send_signal(signal.SIGTERM)
        status = cluster.running[0].wait(PATIENCE)
        if status != -signal.SIGTERM or took > 2:
            raise Failed(f"closed after {took:.2f} s, status {status}")
        return f"closed after {took:.2f} s, and served once one has gone; the signal ended the node"


def deaf_client_is_given_up(program):
    """A client that goes on writing lines and reads no answer"""
    with Cluster(program, 1) as cluster:
        Client(cluster, 0)
        one, sent, begin = socket.socket(), 0, time.time()
        one.setsockopt(socket.SOL_SOCKET, socket.SO_RCVBUF, 4096)
        one.connect(("127.0.0.1", cluster.clients[0]))
        one.setblocking(False)
        while time.time() < begin + PATIENCE:
            try:
                sent += one.send(b"{}\n" * 4096)
            except BlockingIOError:
                time.sleep(0.01)
            except ConnectionError:
                break
        took = time.time() - begin
        if took > DEAF:
            raise Failed(f"it was listened to for {took:.1f} s")
        return f"closed after {took:.1f} s and {sent // 3:,} lines"


def http_request_is_answered_once(program):
    """HTTP requests with a `stop` behind their first line, as a page in a browser can send them"""
    with Cluster(program, 1) as cluster:
        client = Client(cluster, 0)
        for line in (b"POST / HTTP/1.1", b"GET /" + b"x" * 5000 + b" HTTP/1.1", b"OPTIONS * HTTP/1.1"):
            with cluster.connect(0) as one:
                one.sendall(line + b"\r\nHost: node\r\n\r\n" + b'{"op":"stop"}\n')
                answer = b""
                with contextlib.suppress(ConnectionError):
                    while more := one.recv(4096):
                        answer += more
                if answer != b'{"error":"J1 NotJson"}\n':
                    raise Failed(f"the answer to {line[:20]} is {answer}")
        client.ask(op="open", user=7)
        return "each is answered J1 once and closed, and the node goes on"
