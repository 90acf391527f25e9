"""Where the proved and built programs lie, and which command builds one that isn't there. For all examples.

Who imports it can import the modules of tools/ and checks/ then, by their names (checks/paths.py).
"""
import os
import runpy
import sys

TOP = os.path.dirname(os.path.dirname(os.path.abspath(__file__)))
runpy.run_path(os.path.join(TOP, "checks", "paths.py"))
# how each is run once
PROGRAMS = {"role_lab": "", "role_daemon": " < stdin", "tundelca": " -- --version", "row_lab": " < stdin"}


def path_of(name, top=TOP):
    """Where `rt run` leaves a program in a checkout."""
    return os.path.join(top, "crates", name, "out", name)


def program(name, given=None):
    """The program that is given, or that of the checkout that is given, or else of this one: where it lies.

    Ends this program in one line where it isn't there.
    """
    path = path_of(name) if given is None else path_of(name, given) if os.path.isdir(given) else given
    if not os.path.exists(path):
        begun = os.path.basename(sys.argv[0])
        sys.exit(f"{begun}: {path} is not there. `cd crates/{name} && rt run{PROGRAMS[name]}` proves and builds it,\n"
                 "once, in ten to forty minutes; `python3 examples/first_cluster.py` shows a cluster without a proof")
    return os.path.abspath(path)
