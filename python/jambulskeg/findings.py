"""What the proved check finds of a solution, and the sentence of each rule that it may break."""

from __future__ import annotations

from dataclasses import dataclass
from typing import Optional, Sequence

from .arguments import A_SOLUTION, a, asks
from .solution import Solution

SENTENCES = {
    "shape": "the solution has not the form of one of this model; complete.shape_faults tells where",
    "ends": "{vehicle} has {node} at {place} of its nodes; it begins at its start, ends at its end, and has visits "
            "between them",
    "once": "{vehicle} makes {node} at {place} of its nodes, and it is made earlier too",
    "dropped": "'dropped' is not the list of the visits that no route makes, ascending",
    "required": "visit {number} is not made, and must be: it is in no group",
    "group": "group {number} has more visits than it may have, or without a penalty other than as many as it asks",
    "pair": "of pair {number} one is made alone, by another vehicle, or the delivery first",
    "policy": "{vehicle} does not deliver in the order of its policy",
    "allowed": "{vehicle} makes {node} at {place} of its nodes, and may not",
    "schedule": "{vehicle} has no schedule in dimension {number} that keeps its rules",
    "cumul": "{vehicle} has at stop {number}, {node}, a cumul outside its capacity or window, in a forbidden interval, "
             "or not 0 at a fixed start",
    "slack": "{vehicle} has after stop {number}, {node}, a slack that its cumuls do not leave, or above slack_max: "
             "the way takes another time than the model says",
    "break": "{vehicle} has in dimension {number} a break out of its range, before the one before it ends, during a "
             "visit or a drive that leaves no room for it",
    "parts": "the part '{part}' of the cost is not what the routes cost",
    "cost": "the cost is not the sum of its parts",
    "first_cost": "'first_cost' is less than the cost",
    "limits": "'tries' or 'solutions' are not within the limits of the model's search",
}
"""What each rule says if it is broken, in the order in which they are looked at. Routes without schedules may break
those from `required` to `schedule`."""
PARTS = ("arcs", "fixed", "global", "penalty", "soft", "span")


@dataclass(frozen=True)
class Finding:
    """What `check` found: the cost of a solution that meets its model, else the first rule that it breaks, and where.

    `vehicle` and `place` are -1 if they do not apply; docs/FORMAT.md says what they count for each rule.
    """

    cost: Optional[int] = None
    rule: Optional[str] = None
    vehicle: int = -1
    place: int = -1

    @property
    def meets(self) -> bool:
        """Whether the solution keeps all rules."""
        return self.rule is None


@asks(finding=a(Finding), solution=A_SOLUTION)
def explain(finding: Finding, solution: Solution) -> str:
    """The finding in a sentence."""
    return sentence_of(finding, [route.nodes for route in solution.routes])


def sentence_of(finding: Finding, nodes: Sequence[Sequence[int]]) -> str:
    """The finding in a sentence; `nodes` are those of each vehicle, from its start to its end."""
    if finding.rule is None:
        return f"the solution meets its model and costs {finding.cost}"
    own = nodes[finding.vehicle] if 0 <= finding.vehicle < len(nodes) else ()
    return SENTENCES.get(finding.rule, "the solution breaks the rule '{rule}'").format(
        rule=finding.rule,
        vehicle=f"vehicle {finding.vehicle}",
        number=finding.place,
        place=f"place {finding.place}",
        node=f"node {own[finding.place]}" if 0 <= finding.place < len(own) else "a node",
        part=PARTS[finding.place] if 0 <= finding.place < len(PARTS) else finding.place,
    )
