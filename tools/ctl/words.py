"""How the program's words are read."""
import argparse

from ctl import WORDS, nodes

NAME = "tundelca-ctl"
NODE = "a client port, a socket's path, @NAME, or a cluster file"


class Words(argparse.ArgumentParser):
    """Words that are wrong are told in a line, and the exit status is 3."""

    def error(self, message):
        self.exit(WORDS, f"{self.prog}: {message}; --help says more\n")

    def node(self, name="node", help=NODE, **more):
        """A node, or some."""
        self.add_argument(name, type=nodes.node, metavar="NODE", help=help, **more)

    def account(self, *others):
        """Whose nodes are believed, too, where they listen at sockets."""
        self.add_argument("--account", *others, dest="account", type=nodes.account, metavar="ACCOUNT",
                          help="who may listen at a socket too, beside root, tundelca and who asks")

    def patience(self, default):
        """How long an answer may take."""
        self.add_argument("--patience", type=nodes.seconds, default=default, metavar="S",
                          help="how long an answer may take (%(default)g s)")


class Steps:
    """The sub-commands of a command. Each says what it does in a line, and how it is used."""

    def __init__(self, parser, title="command"):
        self.steps = parser.add_subparsers(dest=title, required=True, metavar=title.upper(), parser_class=Words,
                                           prog=parser.prog)
        self.helps = {}

    def add_parser(self, name, help, example):
        self.helps[name] = help
        return self.steps.add_parser(name, help=help, description=help[0].upper() + help[1:] + ".",
                                     epilog="examples:" + example,
                                     formatter_class=argparse.RawDescriptionHelpFormatter)
