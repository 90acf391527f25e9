"""`status`: a table of nodes for a person. `health`: one line and an exit status for a machine."""
import dataclasses
import json
import sys
import time

from ctl import AWAY, DONE, NO, WORDS, Fault, findings, nodes
from ctl.findings import FEW, READY, Looks, Sight
from ctl.nodes import Nodes
from ctl.terminal import BOLD, DIM, GREEN, PLAIN, RED, YELLOW, Table, Terminal, counted, microseconds, percent

STATUSES = {READY: DONE, findings.NOTE: DONE, findings.ALARM: NO, findings.BEHIND: NO, findings.TWICE: NO,
            findings.AWAY: AWAY}
STYLES = {READY: GREEN, findings.ALARM: YELLOW, findings.BEHIND: YELLOW, findings.TWICE: RED, findings.AWAY: RED}
MOST_OWNERS = 20  # rows, unless all are asked for
MOST_SHOWN = 12  # nodes beside one another
EVERY = 1.0  # seconds from look to look


def add(steps):
    """The words of these commands."""
    one = steps.add_parser("status", "how nodes stand: a table, and what is not well", example="""
  tundelca-ctl status 7400 7401 7402 7403
  tundelca-ctl status --watch node*.json
  tundelca-ctl status --watch --every 5 7400
  tundelca-ctl status @0                             the package's node 0, at its socket

The status is 2 where a node is away, and 1 where something is by which to be woken: a node is begun twice or
behind, as `health` means it, cut off, busy, slow to sync, or near its end, or nine tenths of a share are used. What
takes two looks to see, --watch tells: lost frames, and when each share ends at its last ten minutes' rate.""")
    one.node("nodes", nargs="+")
    one.account("--owner")
    one.add_argument("--watch", action="store_true", help="look again and again, until it is interrupted")
    one.add_argument("--every", type=nodes.seconds, metavar="S", help="with --watch: how often (1 s)")
    one.add_argument("--all", action="store_true", help=f"all owners, not only {MOST_OWNERS}")
    one.add_argument("--json", action="store_true", help="what each node says, as a line of JSON")
    may_lie(one)
    one.patience(2.0)
    one.set_defaults(run=status)
    one = steps.add_parser("health", "one line: exit status 0 ready, 1 behind or begun twice, 2 away", example="""
  tundelca-ctl health 7400
  tundelca-ctl health node0.json --of 7401 7402 7403 --lag 100

A node is behind where it lacks more commands than one of the others has said to have, hears too few peers,
has a full history, or can't write its journal. It is begun twice where it says so, or more of its own commands are
there than it has published: what is published at it is lost.""")
    one.node()
    one.node("--of", "others to compare it with", nargs="+", default=[])
    one.account("--owner")
    one.add_argument("--lag", type=int, default=FEW, metavar="N", help="how many commands it may lack (%(default)s)")
    may_lie(one)
    one.patience(2.0)
    one.set_defaults(run=health)


def may_lie(one):
    one.add_argument("--may-lie", type=int, metavar="F",
                     help="go by what F others confirm; by a cluster file if one is named, else by the furthest")


def health(given):
    """Whether a node is ready, in one line."""
    with Nodes([given.node, *given.of], given.patience) as watched:
        may_lie = nodes.may_lie_of([given.node, *given.of], given.may_lie)
        sight = Sight(watched.look(may_lie), may_lie)
    one = sight.seen[0]
    state, found = sight.state(one, given.lag)
    told = [finding.text for finding in found + sight.spent(str(one)) if state in (READY, finding.kind)]
    if state == READY:
        told.insert(0, described(one))
    print(f"{state}: {'; '.join(told)}")
    return STATUSES[state]


def described(one):
    it = one.standing
    parts = [f"{one} at {one.node.door}", counted(sum(it.reaches), "command"),
             f"{percent(it.used())} of its life span"]
    if it.owns() is not None:
        used, share = it.owns()
        parts.append(f"{counted(max(0, share - used), 'place')} left")
    if it.shares is not None:
        parts.append(f"{counted(max(0, it.acts_share - it.acts), 'act')} left")
    return ", ".join(parts)


def status(given):
    """The table of nodes, once or again and again."""
    if given.every is not None and not given.watch:
        raise Fault(WORDS, "--every S goes with --watch")
    terminal, before, looks = Terminal(sys.stdout), None, Looks()
    may_lie = nodes.may_lie_of(given.nodes, given.may_lie)
    is_drawn = given.watch and terminal.is_person and not given.json
    if is_drawn:
        terminal.redraw("")
    with Nodes(given.nodes, given.patience) as watched:
        while True:
            now, seen = time.monotonic(), watched.look(may_lie)
            sight = looks.sight(seen, may_lie, now)
            text = "\n".join([json.dumps(row(one)) for one in seen] if given.json else
                             page(terminal, sight, before and sum(sight.most) - before[1], before and now - before[0],
                                  given.all))
            if is_drawn:
                terminal.redraw(text)
            else:
                print(text, end="\n" if not given.watch or given.json else "\n\n", flush=True)
            if not given.watch:
                return max((STATUSES[finding.kind] for finding in sight.findings()), default=DONE)
            before = (now, sum(sight.most))
            time.sleep(max(0.0, (given.every or EVERY) - (time.monotonic() - now)))


def row(one):
    """What is known of a node, for a program."""
    known = {} if one.standing is None else dataclasses.asdict(one.standing)
    return {**one.node.labels(), "away": one.why, "begun_twice": one.begun_twice(), **known}


def page(terminal, sight, grown, seconds, is_all):
    """The lines of what a person sees. `grown` is by how many commands in so many seconds; None at first."""
    found = sight.findings()
    yield head(terminal, sight, found, grown, seconds)
    yield ""
    yield from node_table(terminal, sight).lines(terminal)
    if any(sight.most):
        yield ""
        yield from owner_table(terminal, sight, is_all)
    if found:
        yield ""
        for finding in found:
            style = STYLES.get(finding.kind, PLAIN)
            yield f"  {terminal.painted(terminal.mark('▸', '-'), style)} {finding.text}"


def head(terminal, sight, found, grown, seconds):
    """One line that says how all is."""
    answer = sum(one.standing is not None for one in sight.seen)
    what = f"{answer} of {counted(len(sight.seen), 'node')} {'answers' if answer == 1 else 'answer'}"
    is_red = any(STYLES.get(finding.kind) == RED for finding in found)
    style = GREEN if not found else RED if is_red else YELLOW
    parts = [counted(sum(sight.most), "command")]
    if grown is not None:
        parts.append(f"{max(0, grown) / max(0.001, seconds):,.0f} a second")
    parts.append(time.strftime("%H:%M:%S"))
    sign = terminal.painted(terminal.mark("●", "*"), style)
    return f"{sign} {terminal.painted(what, BOLD)}  {terminal.painted('  '.join(parts), DIM)}"


def node_table(terminal, sight):
    """A row for each node."""
    where = "port" if all(one.node.door.is_port() for one in sight.seen) else "at"
    table = Table([("node", False, 9), (where, False, 8), ("state", True, 10), ("behind", False, 7),
                   ("history", False, 3), ("life span used", True, 6), ("acts left", True, 3), ("sessions", False, 4),
                   ("hears", False, 5), ("waiting", False, 1), ("again", False, 2), ("lost", False, 1),
                   ("unopened", False, 0), ("sync mean, worst", True, 2)])
    for one in sight.seen:
        state, _ = sight.state(one)
        me = terminal.mark("–", "-") if one.me() is None else one.me()
        cells = [str(me), one.node.door.short(), (state, STYLES[state])]
        table.add(*cells, *(standing_cells(terminal, sight, one) if one.standing else [""] * 11))
    return table


def lasts(terminal, share):
    """What is left of a share, and in --watch for how long: a cell."""
    if share is None:
        return (terminal.mark("–", "-"), DIM)
    return (share.lasts(), PLAIN if share.told() is None else YELLOW)


def standing_cells(terminal, sight, one):
    """What a node that answers says of itself, in the columns of the table."""
    none = (terminal.mark("–", "-"), DIM)
    it, lacks = one.standing, sight.lacks(one)
    used = it.used()
    style = RED if used >= 1 else YELLOW if used >= 0.9 else GREEN
    cells = [(f"{lacks:,}", YELLOW if lacks > FEW else PLAIN), f"{it.at:,}",
             (f"{terminal.bar(used)} {percent(used)}", style),
             lasts(terminal, sight.shares.get(one.node.door))]
    if it.peers is None:
        return cells + [none] * 7
    hears, others = it.hears(), len(it.others())
    waiting = sum(peer.waiting for peer in it.others())
    return cells + [f"{it.sessions:,}", (f"{hears}/{others}", PLAIN if hears == others else YELLOW), f"{waiting:,}",
                    f"{it.again():,}", f"{it.lost():,}",
                    (f"{it.all_unopened():,}", YELLOW if it.all_unopened() else PLAIN), syncs(it.journal)]


def syncs(journal):
    """How long a journal's syncs take."""
    if journal is None:
        return ("in memory", DIM)
    if not journal.sound:
        return ("failed", RED)
    return f"{microseconds(journal.mean)}, {microseconds(journal.worst)}"


def owner_table(terminal, sight, is_all):
    """A row for each owner that has published, with how far each node has its stream."""
    shown, most = [one for one in sight.seen if one.standing is not None], sight.most
    wide = shown[:MOST_SHOWN]
    heads = [f"node {one.me()}" if one.me() is not None else one.node.door.short() for one in wide]
    table = Table([("owner", False, 200), ("published", False, 199), ("places left", True, 198),
                   *((text, False, 100 - at) for at, text in enumerate(heads))])
    rows = [owner for owner in range(len(most)) if any(owner < len(one.standing.reaches) and
                                                       one.standing.reaches[owner] for one in shown)]
    rows.sort(key=lambda owner: (not differs(shown, owner), owner))
    left = [] if is_all else rows[MOST_OWNERS:]
    for owner in sorted(rows if is_all else rows[:MOST_OWNERS]):
        issued = [one.standing.published for one in shown if one.standing.me == owner]
        cells = [(f"{one.standing.reaches[owner]:,}" if owner < len(one.standing.reaches) else "") for one in wide]
        table.add(str(owner), f"{issued[0]:,}" if issued else (terminal.mark("–", "-"), DIM),
                  lasts(terminal, sight.shares.get(owner)),
                  *((text, YELLOW if text and int(text.replace(",", "")) < most[owner] else PLAIN) for text in cells))
    yield from table.lines(terminal)
    if left:
        level = not any(differs(shown, owner) for owner in left)
        yield f"  and {counted(len(left), 'more owner')}{', the same at all nodes' if level else ''}: --all"
    if len(shown) > len(wide):
        yield f"  and {counted(len(shown) - len(wide), 'more node')}: --json"


def differs(shown, owner):
    """Whether the nodes are not equally far in the owner's stream."""
    return len({one.standing.reaches[owner] for one in shown if owner < len(one.standing.reaches)}) > 1
