#!/usr/bin/env python3
"""The operator's tool for nodes of `tundelca serve`, and as far as they answer of `role_daemon serve`.

    python3 tools/tundelca_ctl.py --help

Installed it is `tundelca-ctl`. It speaks to nodes of this machine at their client ports or sockets, and wants nothing
beside Python 3.9, its standard library and what lies beside this file. It ends by itself, in a bounded time, save where
it is told to watch, to follow or to serve a page.
"""
import importlib
import os
import sys

if __name__ == "__main__":
    sys.dont_write_bytecode = True

import tundelca  # noqa: E402
from ctl import AWAY, INTERRUPTED, NO, REFUSED, STATUSES, WORDS, Fault  # noqa: E402
from ctl.nodes import allow  # noqa: E402
from ctl.words import NAME, Steps, Words  # noqa: E402

GROUPS = {  # the commands, each with the module that does it
    "to begin with, and the gateway": {"try": "trial", "policy": "policies"},
    "to see how nodes are": {"status": "status", "health": "status", "metrics": "metrics", "board": "board"},
    "to read and to publish": {"ask": "publishing", "stream": "streams", "diff": "streams", "publish": "publishing",
                               "sessions": "sessions", "stop": "stopping", "lab": "lab"},
    "keys and cluster files": {"key": "files", "file": "files", "files": "files", "check": "files",
                               "begin-anew": "anew"},
}


def words(command):
    """What the program can be asked to do: this command alone, if it is one, so that no other has to be read."""
    modules = {name: module for group in GROUPS.values() for name, module in group.items()}
    wanted = [modules[command]] if command in modules else dict.fromkeys(modules.values())
    parser = Words(prog=NAME, add_help=False, usage=f"{NAME} COMMAND [WORD ..]")
    steps = Steps(parser)
    for module in wanted:
        importlib.import_module(f"ctl.{module}").add(steps)
    return parser, steps


def overview(steps):
    """The help of the whole program."""
    lines = [f"usage: {NAME} COMMAND [WORD ..]", "",
             "The operator's tool for nodes of a cluster. A NODE is its client port on this machine, the path of the",
             "socket at which it listens, @NAME for /run/tundelca/NAME/node.socket, where the package has it, or its",
             "cluster file, which tells more; /etc/tundelca/NAME.json is at @NAME too, where that is there."]
    for title, names in GROUPS.items():
        lines += ["", f"{title}:", *(f"  {name:12}{steps.helps[name]}" for name in names)]
    return "\n".join([*lines, "", STATUSES, "", f"{NAME} COMMAND --help says more of one."])


def main(given):
    """Does what the words ask for. The exit status."""
    try:
        parser, steps = words(given[0] if given else None)
        if not given or given[0] in ("-h", "--help", "help"):
            print(overview(steps))
            return 0 if given else WORDS
        asked = parser.parse_args(given)
        allow(asked)
        done = asked.run(asked)
        sys.stdout.flush()
        return done
    except BrokenPipeError:  # who read has enough
        os.dup2(os.open(os.devnull, os.O_WRONLY), sys.stdout.fileno())
        return 0
    except KeyboardInterrupt:
        return INTERRUPTED
    except tundelca.BegunTwice as fault:
        return told(fault, NO)
    except tundelca.Unfinished as fault:
        return told(fault, REFUSED if isinstance(fault.__cause__, tundelca.Refused) else AWAY)
    except tundelca.Refused as fault:
        return told(f"{fault}{' (the node is no `tundelca` that tells this)' if fault.code == 'J4' else ''}", REFUSED)
    except tundelca.NodeFault as fault:
        return told(fault, AWAY)
    except Fault as fault:
        return told(fault, fault.status)
    except OSError as fault:
        return told(f"{fault.filename}: {fault.strerror}" if fault.filename else fault, WORDS)


def told(fault, status):
    """Says a fault in one line."""
    print(f"{NAME}: {fault}", file=sys.stderr)
    return status


def begin():
    """Runs the program."""
    sys.exit(main(sys.argv[1:]))


if __name__ == "__main__":
    begin()
