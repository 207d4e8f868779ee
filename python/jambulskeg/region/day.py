"""The day of a region: places, vans, skills and pairs, and a part of it as a model."""

from __future__ import annotations

import math
from dataclasses import dataclass, field, replace
from functools import cached_property
from typing import Dict, FrozenSet, List, Optional, Sequence, Tuple

from ..places import Measure, Place, Roads, Van, model_of
from ..records import Allowed, Model, Pair, Search
from ..rescue import relax
from .roads import RoadTable

__all__ = ["Part", "PartModel", "Region", "model_of_part"]

Point = Tuple[float, float]
Lists = Sequence[Sequence[int]]
"""The visits of each van of a part, in their order, by their numbers in the region."""


@dataclass(frozen=True)
class Region:
    """A day of a region. Places and vans go by their numbers in these lists.

    `needs[place]` are the skills that a visit asks of its van, `skills[van]` those that a van has; `pairs` are pickups
    and deliveries, which stay on one van. `costs` and `times` take the place of distances by coordinates.
    """

    places: Sequence[Place]
    vans: Sequence[Van]
    roads: Roads = Roads()
    needs: Sequence[FrozenSet[str]] = ()
    skills: Sequence[FrozenSet[str]] = ()
    pairs: Sequence[Tuple[int, int]] = ()
    costs: Optional[RoadTable] = field(default=None, compare=False, repr=False)
    times: Optional[RoadTable] = field(default=None, compare=False, repr=False)

    @cached_property
    def numbers(self) -> Dict[str, int]:
        """The number of each place by its name."""
        return {place.name: number for number, place in enumerate(self.places)}

    @cached_property
    def starts(self) -> List[int]:
        """Where each van starts."""
        return [self.numbers[van.start] for van in self.vans]

    @cached_property
    def ends(self) -> List[int]:
        """Where each van ends."""
        return [self.numbers[van.end] for van in self.vans]

    @cached_property
    def visits(self) -> List[int]:
        """The places where no van starts or ends, ascending."""
        ends = {*self.starts, *self.ends}
        return [number for number in range(len(self.places)) if number not in ends]

    @cached_property
    def partner(self) -> Dict[int, int]:
        """The other visit of each one that is in a pair."""
        return {one: other for pair in self.pairs for one, other in (pair, pair[::-1])}

    @cached_property
    def pickups(self) -> FrozenSet[int]:
        """The visits that are the first of a pair."""
        return frozenset(one for one, _ in self.pairs)

    @cached_property
    def points(self) -> List[Point]:
        """Where places lie, on a plane: what is near, and how the region is cut. Degrees are brought to one length."""
        if self.roads.measure is not Measure.GREAT_CIRCLE:
            return [(place.x, place.y) for place in self.places]
        middle = math.radians(sum(place.y for place in self.places) / max(1, len(self.places)))
        return [(place.x * math.cos(middle), place.y) for place in self.places]

    @cached_property
    def apart(self) -> float:
        """The square root of the area that there is for each visit, on the plane: about how far near ones are apart."""
        if not self.visits:
            return 0.0
        xs, ys = zip(*(self.points[visit] for visit in self.visits))
        return math.sqrt((max(xs) - min(xs)) * (max(ys) - min(ys)) / len(self.visits))

    def can_make(self, van: int, visit: int) -> bool:
        """Whether a van has the skills that a visit needs, and those that the other visit of its pair needs."""
        return not self.needs or all(
            not self.needs[one] or self.needs[one] <= self.skills[van] for one in self.together(visit)
        )

    def together(self, visit: int) -> Tuple[int, ...]:
        """A visit and the other one of its pair, ascending."""
        other = self.partner.get(visit)
        return (visit,) if other is None else (min(visit, other), max(visit, other))


@dataclass(frozen=True)
class Part:
    """Visits and vans that are planned together, ascending."""

    visits: Tuple[int, ...]
    vans: Tuple[int, ...]


@dataclass(frozen=True)
class PartModel:
    """A part as a model. `nodes[i]` is the place of node i, vehicle k is the van `part.vans[k]`. Visits that none of
    its vans may make are no nodes. `strict` asks for every visit that must be made.
    """

    part: Part
    nodes: Tuple[int, ...]
    strict: Model

    @cached_property
    def relaxed(self) -> Tuple[Model, int]:
        """The model in which each visit may be left out, so that a search always finds something, and what it costs to
        leave out one that must be made: more than any day of the part."""
        return relax(self.strict)

    def own(self, lists: Lists) -> List[List[int]]:
        """The visits of each van, by their nodes in the part."""
        node_of = {place: node for node, place in enumerate(self.nodes)}
        return [[node_of[place] for place in visits] for visits in lists]


def model_of_part(region: Region, part: Part, search: Search = Search()) -> PartModel:
    """The model of a part. Raises `Refused` at what a model cannot take."""
    ends = sorted({place for van in part.vans for place in (region.starts[van], region.ends[van])})
    nodes = (*ends, *(visit for visit in part.visits if any(region.can_make(van, visit) for van in part.vans)))
    model = model_of(
        [region.places[place] for place in nodes], [region.vans[van] for van in part.vans], region.roads, search
    )
    return PartModel(part, nodes, with_rules(region, part, nodes, model))


def with_rules(region: Region, part: Part, nodes: Sequence[int], model: Model) -> Model:
    """The model with what a table of roads, skills and pairs say."""
    matrices = list(model.matrices)
    for number, table in enumerate((region.costs, region.times or region.costs)):
        if table is not None:
            matrices[number] = table.among(nodes)
    node_of = {place: node for node, place in enumerate(nodes)}
    allowed = [
        Allowed(node_of[visit], able) for visit in part.visits
        if visit in node_of and region.needs and any(region.needs[one] for one in region.together(visit))
        for able in [[at for at, van in enumerate(part.vans) if region.can_make(van, visit)]]
    ]
    pairs = [
        Pair(node_of[one], node_of[region.partner[one]]) for one in part.visits
        if one in node_of and one in region.pickups
    ]
    if not allowed and not pairs and region.costs is None and region.times is None:
        return model
    return replace(model, matrices=matrices, allowed=allowed, pairs=pairs)
