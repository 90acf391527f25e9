"""`lab`: policy tests, and what a change would allow, as `role_lab` answers for a cluster that holds what was kept."""
import json
import os
import shutil
import subprocess
import sys

from ctl import DONE, NO, WORDS, Fault, nodes
from ctl.anew import commands_of, read_kept
from ctl.publishing import read_commands
from ctl.terminal import GREEN, RED, Terminal, counted

AT_ONCE = 32  # commands that are published before all are delivered
MOST_ROLES = 1_024
LIMITS = {"user": 1 << 32, "operation": 1 << 16, "object": 1 << 32}
TOP = os.path.dirname(os.path.dirname(os.path.dirname(os.path.abspath(__file__))))


def add(steps):
    """The words of this command."""
    one = steps.add_parser("lab", "policy tests, and what a change would allow", example="""
  tundelca-ctl lab kept.json --change changes.jsonl      who may do what more, or no longer
  tundelca-ctl lab kept.json --tests tests.jsonl         whether each access is decided as it is due
  tundelca-ctl lab kept.json --change changes.jsonl --tests tests.jsonl --script > script

KEPT is what `begin-anew keep` writes, the change has commands as `publish` takes them, and a test is a line such as

  {"user":7,"operation":5,"object":9,"allow":true}
  {"user":7,"roles":[2,3],"operation":5,"object":9,"allow":false}

Where roles are named, a session is opened, these are activated, and it is asked; else it is asked whether any role
of the user allows it. Tests are of what holds after the change. It is all asked of `role_lab`, whose answers are
proved to be those of a node. The status is 1 where a test fails.""")
    one.add_argument("kept", metavar="KEPT")
    one.add_argument("--change", metavar="FILE", help="commands that might be published; - is the standard input")
    one.add_argument("--tests", metavar="FILE", help="accesses, and whether each is allowed")
    one.add_argument("--script", action="store_true", help="write the script alone, for `role_lab`")
    one.add_argument("--program", metavar="PATH", help="role_lab (the one on the PATH, or built in this checkout)")
    one.add_argument("--deadline", type=nodes.seconds, default=60.0, metavar="S", help="for role_lab (%(default)g s)")
    one.set_defaults(run=run)


def read_tests(path):
    """The tests of a file."""
    tests = []
    with open(path, encoding="utf-8", errors="replace") as file:
        for number, line in enumerate(file, 1):
            if line.strip():
                try:
                    tests.append(test_of(json.loads(line)))
                except (json.JSONDecodeError, RecursionError):
                    raise Fault(WORDS, f"{path}, line {number}: no JSON") from None
                except ValueError as error:
                    raise Fault(WORDS, f"{path}, line {number}: {error}") from None
    return tests


def test_of(row):
    """A test, if the row is one."""
    if not isinstance(row, dict) or type(row.get("allow")) is not bool:
        raise ValueError("no test: allow is true or false")
    for name, count in LIMITS.items():
        if type(row.get(name)) is not int or not 0 <= row[name] < count:
            raise ValueError(f"{name} is wrong or missing")
    roles = row.get("roles")
    if roles is not None and (type(roles) is not list or any(type(role) is not int for role in roles)):
        raise ValueError("roles are numbers")
    return row


class Script:
    """Lines for `role_lab`, and for some of them what takes the answer."""

    def __init__(self, roles):
        self.lines, self.takers, self.sessions = ["cluster 1 0"], {}, 0
        self.lines += [f"role {role} 0" for role in sorted(roles)]

    def ask(self, line, taker=None):
        if taker is not None:
            self.takers[len(self.lines)] = taker
        self.lines.append(line)

    def issue(self, commands):
        """Has commands published, and all delivered."""
        for number, command in enumerate(commands, 1):
            self.ask(f"issue 0 {' '.join(map(str, words_of(command)))}", issued)
            if number % AT_ONCE == 0:
                self.ask("flush")
        self.ask("flush")

    def access(self, test, found):
        """Asks for an access; `found` takes whether it is allowed, and by what."""
        user, operation, object = test["user"], test["operation"], test["object"]
        if test.get("roles") is None:
            self.ask(f"list 0 user-operations {user} {object}",
                     lambda answer: found(str(operation) in answer.split()[1:], "some role of the user"))
            return
        self.sessions += 1
        session, refused = self.sessions, []
        self.ask(f"open 0 {user}", lambda answer: due(answer, f"session {session}"))
        for role in test["roles"]:
            self.ask(f"activate 0 {session} {user} {role}",
                     lambda answer, role=role: None if answer == "ok" else refused.append(f"role {role}: {answer}"))
        self.ask(f"check 0 {session} {user} {operation} {object}",
                 lambda answer: found(answer.startswith("allow "), "; ".join([answer, *refused])))
        self.ask(f"close 0 {session} {user}", lambda answer: due(answer, "ok"))


def words_of(command):
    """The words of a command in a script, in their order."""
    yield command["op"]
    order = ("user", "role") if "user" in command else ("role", "operation", "object")
    yield from (command[name] for name in order if name in command)


def issued(answer):
    if not answer.startswith("issued "):
        raise Fault(WORDS, f"role_lab refused a command: {answer}")


def due(answer, text):
    if answer != text:
        raise Fault(WORDS, f"role_lab said {answer!r} where {text!r} was due")


def run(given):
    """Makes the script, has it answered, and says what came of it."""
    held = read_kept(given.kept)
    change = [] if given.change is None else read_commands(given.change)
    tests = [] if given.tests is None else read_tests(given.tests)
    roles = {*held, *(command["role"] for command in change)}
    if len(roles) > MOST_ROLES:
        raise Fault(WORDS, f"a cluster has at most {MOST_ROLES} roles")
    before, after, judged = {}, {}, []
    script = Script(roles)
    script.issue([command for role in sorted(held) for command in commands_of(role, held[role])])
    if change:
        concerned = users_of(held, change)
        permissions(script, concerned, before)
        script.issue(change)
        permissions(script, concerned, after)
    for test in tests:
        script.access(test, lambda allowed, why, test=test: judged.append((test, allowed, why)))
    if given.script:
        print("\n".join(script.lines))
        return DONE
    answers(script, given)
    terminal = Terminal(sys.stdout)
    if given.change is not None:
        show_change(terminal, before, after, len(change))
    return show_tests(terminal, judged) if given.tests is not None else DONE


def users_of(held, change):
    """The users for whom a change may change something."""
    found = {command["user"] for command in change if "user" in command}
    for command in change:
        if "user" not in command and command["role"] in held:
            found.update(held[command["role"]]["users"])
    return sorted(found)


def permissions(script, users, found):
    """Asks what each user may do."""
    for user in users:
        script.ask(f"list 0 user-permissions {user}",
                   lambda answer, user=user: found.update({user: set(answer.split()[1:])}))


def answers(script, given):
    """Has role_lab answer the script."""
    program = given.program or shutil.which("role_lab") or os.path.join(TOP, "crates", "role_lab", "out", "role_lab")
    if not os.access(program, os.X_OK):
        raise Fault(WORDS, f"{program} isn't there: `rt run` in crates/role_lab builds it, or name it by --program")
    try:
        ran = subprocess.run([program], input="\n".join(script.lines) + "\n", capture_output=True, text=True,
                             timeout=given.deadline)
    except subprocess.TimeoutExpired:
        raise Fault(WORDS, f"role_lab took more than {given.deadline:g} seconds") from None
    lines = ran.stdout.splitlines()
    if ran.returncode != 0 or len(lines) != len(script.lines):
        raise Fault(WORDS, f"role_lab ended with status {ran.returncode}: {ran.stderr.strip() or 'too few answers'}")
    for number, taker in script.takers.items():
        taker(lines[number])


def show_change(terminal, before, after, count):
    """Says what each user may do more, and no longer."""
    print(f"{counted(count, 'command')}: what would change")
    changed = 0
    for user in sorted(before):
        rows = [("+", GREEN, "may do", after[user] - before[user]),
                ("-", RED, "may no longer do", before[user] - after[user])]
        for sign, style, words, permissions_of_user in rows:
            for operation, object in sorted(tuple(map(int, pair.split(":"))) for pair in permissions_of_user):
                changed += 1
                print("  " + terminal.painted(f"{sign} user {user} {words} operation {operation} on object {object}",
                                              style))
    if not changed:
        print("  nothing")


def show_tests(terminal, judged):
    """Says how each test went. The exit status."""
    failed = 0
    for test, allowed, why in judged:
        well = allowed == test["allow"]
        failed += not well
        names = test.get("roles")
        roles = "" if names is None else f" in role{'' if len(names) == 1 else 's'} {', '.join(map(str, names))}"
        mark = terminal.painted("passed" if well else "FAILED", GREEN if well else RED)
        print(f"{mark}  user {test['user']}{roles}, operation {test['operation']} on object {test['object']}: "
              f"{'allowed' if allowed else 'denied'}{'' if well else ' (' + why + ')' if roles else ''}")
    print(f"{len(judged) - failed} passed, {failed} failed")
    return NO if failed else DONE
