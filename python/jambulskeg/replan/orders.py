"""New orders from a spreadsheet: a day with more places."""

from __future__ import annotations

from dataclasses import replace
from typing import List, Optional, Sequence

from ..places import Place, Roads, from_places
from ..records import Dimension, Evaluator, Group, Model, NodeRow
from .moment import CannotBeReplanned, clock_of

__all__ = ["with_places"]


def with_places(model: Model, places: Sequence[Place], roads: Roads = Roads(), time: Optional[str] = None) -> Model:
    """The day of a model with further places, which are the last of `places`; the first are those of its nodes.

    The day was made of places, as `model_of` does it, with these roads. Each matrix is one of costs or of times. A
    dimension without drives has the demands, the others the service times. Raises `CannotBeReplanned` if it was not.
    """
    if len(places) < model.nodes:
        raise CannotBeReplanned(f"there are {len(places)} places for {model.nodes} nodes: the places of the day come "
                                "first, and then the new ones")
    known = {
        factor: from_places(places, roads.measure, roads.rounding, factor) for factor in (roads.scale, roads.pace)
    }
    matrices = [longer_matrix(number, matrix, list(known.values())) for number, matrix in enumerate(model.matrices)]
    clock, new = clock_of(model, 0, time), places[model.nodes:]
    counted = any(not has_matrix(dimension) for dimension in model.dimensions)
    for place in new:
        if place.demand and not counted:
            raise CannotBeReplanned(f"the place '{place.name}' has a demand, and the day has no dimension of loads")
        if (place.window or place.service) and clock.time is None:
            raise CannotBeReplanned(f"the place '{place.name}' has a time, and the day has no dimension of times")
    return replace(
        model,
        nodes=len(places),
        matrices=matrices,
        dimensions=[
            longer_dimension(dimension, places, model.nodes, at == clock.time)
            for at, dimension in enumerate(model.dimensions)
        ],
        groups=[*model.groups, *(
            Group([model.nodes + at], place.penalty) for at, place in enumerate(new) if place.penalty is not None
        )],
    )


def longer_matrix(number: int, matrix: Sequence[Sequence[int]], known: Sequence[List[List[int]]]) -> List[List[int]]:
    """The matrix of places that begins with a matrix of the day."""
    size = len(matrix)
    for longer in known:
        if all(tuple(row[:size]) == tuple(old) for row, old in zip(longer, matrix)):
            return longer
    raise CannotBeReplanned(
        f"matrix {number} of the day is not that of its places: say the measure, the scale and the pace with which the "
        "day was made, or give the new orders as a model file"
    )


def has_matrix(dimension: Dimension) -> bool:
    """Whether the dimension has drives."""
    return any(evaluator.matrix is not None for evaluator in dimension.evaluators)


def longer_dimension(dimension: Dimension, places: Sequence[Place], known: int, is_time: bool) -> Dimension:
    """A dimension with what the new places ask of it."""
    timed = has_matrix(dimension)
    numbers = [place.service if timed else place.demand for place in places]
    rows = [NodeRow(known + at, place.window) for at, place in enumerate(places[known:]) if place.window and is_time]
    return replace(
        dimension,
        evaluators=[longer_evaluator(dimension, evaluator, numbers, known) for evaluator in dimension.evaluators],
        visit=None if dimension.visit is None else [*dimension.visit, *(place.service for place in places[known:])],
        nodes=[*dimension.nodes, *rows],
    )


def longer_evaluator(dimension: Dimension, evaluator: Evaluator, numbers: Sequence[int], known: int) -> Evaluator:
    """An evaluator with the numbers of the new places."""
    if evaluator.values is None:
        return evaluator
    if list(evaluator.values) != list(numbers[:known]):
        what = "service times" if has_matrix(dimension) else "demands"
        raise CannotBeReplanned(
            f"the values of the dimension '{dimension.name}' are not the {what} of the places; give the new orders as "
            "a model file"
        )
    return replace(evaluator, values=list(numbers))
