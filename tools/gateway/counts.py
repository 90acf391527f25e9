"""What the gateway has done so far, as Prometheus reads it."""
import collections
from typing import Counter, Dict, List, Optional, Tuple

Labels = Dict[str, str]
Sample = Tuple[Labels, float]
TAKES = (0.001, 0.0025, 0.005, 0.01, 0.025, 0.05, 0.1, 0.25, 0.5, 1.0, 2.5)  # seconds, for which decisions are counted


class Counts:
    """Counts since the gateway's start."""

    def __init__(self) -> None:
        self.requests: Counter[int] = collections.Counter()
        self.decisions: Counter[str] = collections.Counter({"allow": 0, "deny": 0, "none": 0})
        self.buckets = [0] * len(TAKES)
        self.seconds, self.asked = 0.0, 0
        self.evicted = self.timed_out = 0

    def took(self, seconds: float) -> None:
        """A question had an answer after so long."""
        self.seconds, self.asked = self.seconds + seconds, self.asked + 1
        for at, most in enumerate(TAKES):
            if seconds <= most:
                self.buckets[at] += 1
                return

    def text(self, state: Dict[str, float], info: Labels, trouble: Optional[str]) -> str:
        """All samples, each below its help and its kind. `state` are numbers of this moment."""
        total, rows = 0, []
        for most, count in zip(TAKES, self.buckets):
            total += count
            rows.append(({"le": f"{most:g}"}, float(total)))
        lines = family("requests_total", "counter", "Requests that were answered, by the status of the answer.",
                       [({"code": str(code)}, count) for code, count in sorted(self.requests.items())])
        lines += family("decisions_total", "counter", "Decisions; none: where the node's word didn't count.",
                        [({"answer": answer}, count) for answer, count in self.decisions.items()])
        lines += histogram("decision_seconds", "From a whole request to its answer, where the node was asked.",
                           [*rows, ({"le": "+Inf"}, float(self.asked))], self.seconds, self.asked)
        for name, kind, help_ in STATE:
            lines += family(name, kind, help_, [({}, state[name])])
        lines += family("no_decisions", "gauge", "1 while there are no decisions, for this reason.",
                        [] if trouble is None else [({"reason": trouble}, 1)])
        lines += family("policy_info", "gauge", "The policy that counts, by its fingerprint.", [(info, 1)])
        lines += family("evicted_connections_total", "counter", "Connections that gave way to another.",
                        [({}, self.evicted)])
        lines += family("late_connections_total", "counter", "Connections that were ended since they were too slow.",
                        [({}, self.timed_out)])
        return "\n".join(lines) + "\n"


STATE = [
    ("ready", "gauge", "1 where there are decisions."),
    ("policy_wrong", "gauge", "1 where the policy file was changed and is refused: the one before counts."),
    ("warnings", "gauge", "How many shares of the node are nearly used up."),
    ("connections", "gauge", "Connections that stand."),
    ("node_rounds_total", "counter", "How often questions that waited went to the node together."),
    ("node_rows_total", "counter", "Rows that the node was asked."),
]


def escaped(value: str) -> str:
    """A label's value as it stands in quotes."""
    return value.replace("\\", "\\\\").replace('"', '\\"').replace("\n", "\\n")


def line_of(name: str, labels: Labels, number: float) -> str:
    inside = ",".join(f'{label}="{escaped(value)}"' for label, value in labels.items())
    return f"tundelca_gateway_{name}{'{' + inside + '}' if inside else ''} {number:g}" if number < 1e6 else \
        f"tundelca_gateway_{name}{'{' + inside + '}' if inside else ''} {number:.0f}"


def family(name: str, kind: str, help_: str, samples: List[Sample]) -> List[str]:
    """The lines of a metric."""
    return [f"# HELP tundelca_gateway_{name} {help_}", f"# TYPE tundelca_gateway_{name} {kind}",
            *(line_of(name, labels, number) for labels, number in samples)]


def histogram(name: str, help_: str, rows: List[Sample], seconds: float, count: int) -> List[str]:
    """The lines of a histogram."""
    lines = family(name, "histogram", help_, [])
    lines += [line_of(name + "_bucket", labels, number) for labels, number in rows]
    return [*lines, f"tundelca_gateway_{name}_sum {seconds:.6f}", line_of(name + "_count", {}, count)]
