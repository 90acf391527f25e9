"""Nodes that a script plays: they answer clients by what they are told to be, so also as no correct node would.

For the trials of tools (tools_tried.py). What is published at a played node is delivered at once at all that stand.
"""
import contextlib
import json
import os
import socket
import socketserver
import threading
import time

import tundelca

SIZE = 100  # of a page of sessions
ACTS_SHARE = 1_044_480  # of the clients of a node


class Played:
    """A cluster whose nodes a script plays, at these ports, or sockets' paths. Role r belongs to node `owners[r]`."""

    def __init__(self, doors, owners):
        self.streams = [[] for _ in doors]
        self.lock, self.owners = threading.Lock(), owners
        each = tundelca.places_each(list(owners.items()), len(doors))
        self.shares = [each if me in owners.values() else 0 for me in range(len(doors))]
        self.nodes = [Node(self, me, door) for me, door in enumerate(doors)]

    def __enter__(self):
        return self

    def __exit__(self, *_):
        self.end()

    def end(self):
        for node in self.nodes:
            node.end()


class Node:
    """A played node, at a port or a socket's path. `lacks` commands of each owner it hasn't; `changed` are members of
    its status that it says so.

    Where `mute`, it takes lines and answers none; `garbage` is said in place of each answer; `drips` is how many
    seconds go by before each byte of an answer. `lies` are for an operation what is said in place of its answer: bytes,
    or a function that makes some of them again and again, of the line that is asked.
    """

    def __init__(self, cluster, me, port):
        self.cluster, self.me, self.port, is_port = cluster, me, port, isinstance(port, int)
        self.lacks, self.changed, self.sessions, self.newest, self.acts = {}, {}, {}, 0, 0
        self.mute, self.garbage, self.drips, self.connections, self.lies = False, None, None, [], {}
        node = self

        class Handler(socketserver.StreamRequestHandler):
            def handle(self):
                node.connections.append(self.connection)
                for line in self.rfile:
                    answer = node.answer(line) or b""
                    if node.drips is None:
                        for part in [answer] if type(answer) is bytes else answer:
                            self.wfile.write(part)
                        continue
                    for byte in answer:
                        time.sleep(node.drips)
                        self.wfile.write(bytes([byte]))

        class Server(socketserver.ThreadingTCPServer if is_port else socketserver.ThreadingUnixStreamServer):
            allow_reuse_address, daemon_threads = True, True
            request_queue_size = 128  # with more than wait, the system lets the next one try again after a second

            def handle_error(self, *_):
                pass

        self.server = Server((tundelca.LOOPBACK, port) if is_port else port, Handler)
        threading.Thread(target=self.server.serve_forever, kwargs={"poll_interval": 0.02}, daemon=True).start()

    def end(self):
        """Ends it, and all its connections."""
        self.server.shutdown()
        self.server.server_close()
        self.hang_up()
        if not isinstance(self.port, int):
            with contextlib.suppress(OSError):
                os.unlink(self.port)

    def hang_up(self):
        """Ends all its connections, and none that is made meanwhile."""
        for connection in list(self.connections):
            with contextlib.suppress(OSError):
                connection.shutdown(socket.SHUT_RDWR)

    def answer(self, line):
        if self.mute:
            return None
        if self.garbage is not None:
            return self.garbage
        lie = self.lies.get(json.loads(line)["op"])
        if lie is not None:
            return lie(json.loads(line)) if callable(lie) else lie
        with self.cluster.lock:
            return json.dumps(self.said(json.loads(line)), separators=(",", ":")).encode() + b"\n"

    def said(self, asked):
        """What is answered."""
        call = getattr(self, f"on_{asked['op']}", None)
        if asked["op"] in tundelca.PUBLISHED:
            return self.publish(asked)
        return {"error": "J4 UnknownOp"} if call is None else call(asked)

    def reach(self, owner):
        return len(self.cluster.streams[owner]) - self.lacks.get(owner, 0)

    def publish(self, asked):
        if self.cluster.owners.get(asked["role"]) != self.me:
            return {"error": "F1 NotMine"}
        names = [name for name in ("object", "operation", "role", "user") if name in asked]
        self.cluster.streams[self.me].append({"op": asked["op"], **{name: asked[name] for name in names}})
        return {"issued": len(self.cluster.streams[self.me]) - 1, "reach": self.reach(self.me)}

    def on_status(self, _):
        count = len(self.cluster.nodes)
        peer = {"again": 0, "connected": True, "heard": True, "lost": 0, "unopened": 0, "waiting": 0}
        said = {"acts": self.acts, "acts_share": ACTS_SHARE, "shares": self.cluster.shares,
                "at": sum(map(len, self.cluster.streams)) * (2 * count + 1), "journal": None, "limit": 4_194_304,
                "peers": [None if name == self.me else dict(peer) for name in range(count)],
                "published": len(self.cluster.streams[self.me]), "reaches": [self.reach(o) for o in range(count)],
                "sessions": len(self.sessions), "unopened": 0}
        return {**said, **self.changed}

    def on_decide(self, asked):
        verdict = self.decided(asked["user"], asked["owner"], asked["operation"], asked["object"])
        return {**verdict, "at": self.on_status(None)["at"]}

    def on_decide_all(self, asked):
        return {"at": self.on_status(None)["at"], "decisions": [self.decided(*row) for row in asked["asked"]]}

    def decided(self, user, owner, operation, object_):
        """The decision by the owner's roles. A played node reads no commands: it says N3 or N4."""
        rule = "N4" if owner in self.cluster.owners.values() else "N3"
        return {"allow": False, "reach": self.reach(owner), "rule": rule}

    def on_reach(self, asked):
        if asked["owner"] >= len(self.cluster.streams):
            return {"error": "J6 OutOfRange", "name": "owner"}
        return {"reach": self.reach(asked["owner"])}

    def on_command(self, asked):
        owner, place = asked["owner"], asked["place"]
        return {"command": self.cluster.streams[owner][place] if place < self.reach(owner) else None}

    def on_sessions(self, asked):
        found = sorted(pair for pair in self.sessions.items() if pair[0] >= asked["from"])
        return {"at": 1, "sessions": [list(pair) for pair in found[:SIZE]]}

    def on_open(self, asked):
        self.newest, self.acts = self.newest + 1, self.acts + 1
        self.sessions[self.newest] = asked["user"]
        return {"session": self.newest}

    def on_close(self, asked):
        if self.sessions.get(asked["session"]) != asked["user"]:
            return {"error": "N1 NoSession"}
        del self.sessions[asked["session"]]
        self.acts += 1
        return {"done": True}

    def on_assigned_users(self, asked):
        users = set()
        for command in self.cluster.streams[self.cluster.owners.get(asked["role"], 0)]:
            if command["role"] == asked["role"] and command["op"] == "assign":
                users.add(command["user"])
            elif command["role"] == asked["role"] and command["op"] == "deassign":
                users.discard(command["user"])
        return {"at": 1, "users": sorted(users)}

    def on_role_permissions(self, asked):
        return {"at": 1, "permissions": sorted({(row["operation"], row["object"]) for row in self.cluster.streams[
            self.cluster.owners.get(asked["role"], 0)] if row["op"] == "grant" and row["role"] == asked["role"]})}
