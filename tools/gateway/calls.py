"""What a request asks for: by its method, target, fields and body, without a socket.

The first of these that holds answers: an odd `X-Request-ID` (400), a call that wants no token, no known token (401), no
such call (404), another method (405), another type of body (415), a bad body (400), no decision (503), the decision.
"""
import hashlib
import json
import re
from dataclasses import dataclass, field
from typing import Any, Dict, List, Mapping, Optional, Protocol, Tuple, Union

from gateway import questions
from gateway.policy import Policy
from gateway.questions import Bad, Question

EVALUATION, EVALUATIONS, FORWARD = "/access/v1/evaluation", "/access/v1/evaluations", "/v1/forward"
METADATA, LIVE, READY, METRICS = "/.well-known/authzen-configuration", "/health/live", "/health/ready", "/metrics"
OPEN = (METADATA, LIVE, READY, METRICS)
JSON, TEXT = "application/json", "text/plain; version=0.0.4; charset=utf-8"
REQUEST_ID = re.compile("[ -~]{1,256}")


@dataclass
class Request:
    """A request: `fields` has each header's values, by its name in small letters."""

    method: str
    target: str
    fields: Mapping[str, List[str]]
    body: bytes = b""

    def only(self, name: str) -> Optional[str]:
        """The value of a header that may stand once; None where it is absent. Raises `Bad`."""
        values = self.fields.get(name, [])
        if len(values) > 1:
            raise Bad(400, f"{name} stands twice")
        return values[0] if values else None


@dataclass
class Reply:
    """An answer: a status, a body, and headers beside those that each has."""

    status: int
    body: bytes = b""
    kind: str = JSON
    more: Tuple[Tuple[str, str], ...] = field(default_factory=tuple)


def told(status: int, value: Dict[str, Any], *more: Tuple[str, str]) -> Reply:
    """An answer that is JSON."""
    return Reply(status, json.dumps(value, separators=(",", ":")).encode("ascii"), JSON, more)


def fault(status: int, why: str, *more: Tuple[str, str]) -> Reply:
    """An answer to a call that isn't answered."""
    return told(status, {"error": {"message": why, "status": status}}, *more)


class Site(Protocol):
    """What calls are answered by: the policy, the gateway's own address, why there are no decisions, and its counts."""

    policy: Policy
    url: str

    def trouble(self) -> Optional[str]:
        """Why there are no decisions; None where there are."""

    def soon(self) -> List[str]:
        """What of the node is nearly used up."""

    def metrics(self) -> str:
        """All counts, as text."""


def request_id(request: Request) -> Optional[str]:
    """The request's own id, which comes back. Raises `Bad`."""
    given = request.only("x-request-id")
    if given is not None and REQUEST_ID.fullmatch(given) is None:
        raise Bad(400, "x-request-id: 1 to 256 printable characters are due")
    return given


def opened(request: Request, path: str, site: Site) -> Reply:
    """The answer to a call that wants no token."""
    if request.method not in ("GET", "HEAD"):
        return fault(405, "GET is due", ("Allow", "GET, HEAD"))
    if path == METADATA:
        return told(200, {"policy_decision_point": site.url, "access_evaluation_endpoint": site.url + EVALUATION,
                          "access_evaluations_endpoint": site.url + EVALUATIONS})
    if path == METRICS:
        return Reply(200, site.metrics().encode("utf-8"), TEXT)
    if path == LIVE:
        return told(200, {"live": True})
    trouble = site.trouble()
    if trouble is not None:
        return told(503, {"ready": False, "reason": trouble})
    return told(200, {"policy": site.policy.fingerprint, "ready": True, "soon": site.soon()})


def caller(request: Request, policy: Policy) -> Optional[str]:
    """Whose token the request has; None where it has none that is known."""
    values = request.fields.get("authorization", [])
    if len(values) != 1:
        return None
    scheme, _, token = values[0].partition(" ")
    if scheme.lower() != "bearer":
        return None
    return policy.callers.get(hashlib.sha256(token.strip().encode("latin-1", "replace")).hexdigest())


def answered(request: Request, site: Site) -> Union[Reply, Question]:
    """The answer, or the question that it takes a node to answer. Raises `Bad`."""
    path = request.target.partition("?")[0]
    if path in OPEN:
        return opened(request, path, site)
    if caller(request, site.policy) is None:
        return fault(401, "no known token", ("WWW-Authenticate", 'Bearer realm="tundelca"'))
    if path == FORWARD or path.startswith(FORWARD + "/"):
        return forward(request, path, site.policy)
    if path not in (EVALUATION, EVALUATIONS):
        return fault(404, "no such call")
    if request.method != "POST":
        return fault(405, "POST is due", ("Allow", "POST"))
    if (request.only("content-type") or "").partition(";")[0].strip().lower() != JSON:
        return fault(415, f"{JSON} is due")
    reader = questions.evaluation if path == EVALUATION else questions.evaluations
    return reader(request.body, site.policy)


def forward(request: Request, path: str, policy: Policy) -> Union[Reply, Question]:
    """What a proxy asks of a request of a service: by headers, or with its own method and the path behind ours."""
    if policy.forward is None:
        return fault(404, "the policy has no `forward`")
    subject = request.only(policy.forward.header.lower())
    method, target = request.only("x-original-method"), request.only("x-original-uri")
    if not subject:
        return fault(401, f"no {policy.forward.header}", ("WWW-Authenticate", 'Bearer realm="tundelca"'))
    if path != FORWARD:
        if method is not None or target is not None:  # a client's own, which would name another request
            return fault(403, "two requests are named")
        return questions.forwarded(policy, request.method, request.target[len(FORWARD):], subject)
    if method is None or target is None:
        return fault(403, "x-original-method and x-original-uri are due")
    return questions.forwarded(policy, method, target, subject)


def is_forward(request: Request) -> bool:
    """Whether a proxy asks: a no is a 403 then."""
    return request.target.startswith(FORWARD)
