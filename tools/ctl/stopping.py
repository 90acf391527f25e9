"""`stop`: a node is stopped, and its end awaited."""
import contextlib
import os
import select
import time

import tundelca
from ctl import DONE

LOOK = 0.02  # seconds between two looks whether it is there
SHORTLY = 1.0  # seconds in which a connection is made, where somebody listens


def add(steps):
    """The words of this command."""
    one = steps.add_parser("stop", "stops a node, and waits for its end", example="""
  tundelca-ctl stop @0                     the package's node 0: systemd starts it again, as after a crash
  tundelca-ctl stop 7400

It ends when nobody listens there any more and, of a socket, when the process that did has ended. To keep a node of
the package from coming back, have systemd stop it: systemctl stop tundelca@0 does this first.""")
    one.node()
    one.account("--owner")
    one.patience(30.0)
    one.set_defaults(run=run)


def run(given):
    """Stops the node. Where the answer is lost, it was obeyed if nobody listens any more."""
    end, door = time.monotonic() + given.patience, given.node.door
    with contextlib.ExitStack() as stack:
        client = stack.enter_context(tundelca.Client(door, given.patience))
        process = None if door.is_port() else handle(door.listener(client.socket)[0])
        if process is not None:
            stack.callback(os.close, process)
        lost = None
        try:
            client.ask("stop")
        except tundelca.Ended as fault:
            lost = fault
        while is_there(door, process):
            if time.monotonic() > end:
                raise lost or tundelca.Unreachable(f"the node at {door} goes on after {given.patience:g} s")
            time.sleep(LOOK)
    return DONE


def handle(process):
    """What tells when a process has ended; None where the system doesn't say."""
    try:
        return os.pidfd_open(process) if process > 0 else None
    except (AttributeError, OSError):
        return None


def is_there(door, process):
    """Whether the process runs, or else somebody listens at the door."""
    if process is not None:
        return not select.select([process], [], [], 0)[0]
    try:
        door.connect(SHORTLY).close()
        return True
    except (OSError, tundelca.Stranger):
        return False
