"""The rest of a day that has begun: planned anew from a moment on, and put together with what was made until then.

    rest = replan(model, solution, 660, new=model_with_new_orders)
    found = rescue(rest.model, solver=timed_solver(10))
    whole = glue(rest.day, rest, found.solution)

or, from the routes of the morning, with their plan as a second candidate, `solve_rest(rest, from_morning(10)).whole`.
"""

from .answering import Replanned, RestSolver, from_morning, going_on, searched, solve_rest
from .continuing import continued
from .gluing import Moved, glue, moved
from .layout import Layout
from .moment import CannotBeReplanned, Clock, Unavailable, Van, Where
from .orders import with_places
from .rest import Rest, replan
from .tours import with_tours

__all__ = [
    "CannotBeReplanned", "Clock", "Layout", "Moved", "Replanned", "Rest", "RestSolver", "Unavailable", "Van", "Where",
    "continued", "from_morning", "glue", "going_on", "moved", "replan", "searched", "solve_rest", "with_places",
    "with_tours",
]
