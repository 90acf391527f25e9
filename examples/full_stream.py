#!/usr/bin/env python3
"""A node of its own whose owner publishes as many commands as a stream has places, and one more: that is refused.

    python3 examples/full_stream.py [PROGRAM]

PROGRAM is the built role_lab, crates/role_lab/out/role_lab if it is left out. Each command makes four events, its
command, its SEND, its ECHO and its READY, and a history takes 4,194,304: so the last command of the stream also fills
the history, and the one behind it is refused for the stream, which comes first.
"""
import os
import subprocess
import sys
import tempfile

import built

PLACES = 1_048_576


def lines():
    """The lines of the script, each with the answer that is due."""
    yield "cluster 1 0", "sizes 1 1 1"
    yield "role 2 0", "ok"
    for place in range(PLACES):
        yield f"issue 0 assign {place % 7} 2", f"issued {place} sent {3 * place}-{3 * place}"
        yield "flush", "flushed 3"
    yield "issue 0 assign 7 2", "F2 StreamFull"
    yield "open 0 7", "F4 Full"
    yield "reach 0 0", f"reach {PLACES}"
    yield "list 0 users 2", "list 0 1 2 3 4 5 6"


def main():
    program = built.program("role_lab", *sys.argv[1:2])
    with tempfile.TemporaryDirectory(prefix="tundelca-") as folder:
        script, due, came = (os.path.join(folder, name) for name in ("script", "due", "came"))
        with open(script, "w", encoding="ascii") as asked, open(due, "w", encoding="ascii") as answers:
            for line, answer in lines():
                asked.write(line + "\n")
                answers.write(answer + "\n")
        with open(script, "rb") as asked, open(came, "wb") as answers:
            subprocess.run([program], stdin=asked, stdout=answers, check=True)
        with open(due, "rb") as wanted, open(came, "rb") as answers:
            for number, (answer, what) in enumerate(zip(wanted, answers), 1):
                if answer != what:
                    sys.exit(f"line {number}: due {answer!r}, came {what!r}")
        if os.path.getsize(due) != os.path.getsize(came):
            sys.exit("another length")
    print(f"{PLACES} commands fill the stream, and the next is refused")


if __name__ == "__main__":
    main()
