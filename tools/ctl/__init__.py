"""What `tundelca_ctl.py` does, a file for each kind of work."""
DONE, NO, AWAY, WORDS, REFUSED, INTERRUPTED = 0, 1, 2, 3, 4, 130  # exit statuses

STATUSES = """exit statuses:
  0  done; well; the same; every test passes
  1  not so: a node is behind or begun twice, two differ, a test fails, a file is wrong in itself
  2  a node is away: it doesn't answer, or not in time, or what no node says
  3  the words of the command or a file are wrong
  4  a node refused, by the code and name that it says"""


class Fault(Exception):
    """What ends the program, in one line, and the exit status."""

    def __init__(self, status, text):
        self.status = status
        super().__init__(text)
