"""The parts of a round, handed to a crew; each answer is checked, and kept on disk, before it is taken."""

from __future__ import annotations

import json
from concurrent.futures import Future, ThreadPoolExecutor
from contextlib import closing
from dataclasses import dataclass
from functools import lru_cache
from typing import Callable, Dict, Generic, List, Optional, Sequence, TypeVar, Union

from ..engines import Answer, EngineFailed
from ..errors import JambulskegError, NoFirstSolution, NotMet, ProgramFailed, Refused
from ..findings import Finding, explain
from ..program import Program, ProgramLike, program_of
from ..solution import Solution
from .ahead import ahead
from .crew import Crew
from .day import Lists, Part, Region
from .given import Given, given_of
from .mending import Effort
from .store import Store

__all__ = ["NotSolved", "Round", "agreed", "beside", "solve_parts"]

TRIALS = 3
"""How often a part is given out before the run ends without it."""
NONE = {"status": "NONE"}
"""What is kept of a part whose construction finds no first solution."""
KEPT = 32
"""Of how many parts what is given out is kept at a time."""
CHECKS = 2
"""How many answers are checked at a time."""

T = TypeVar("T")
Judge = Callable[[int, Given, Optional[Solution]], T]
"""What a checked solution of a part comes to, None where its construction finds none."""


class NotSolved(JambulskegError):
    """Some parts have no answer that holds, also when given out again: `problem` is that of the first of them."""

    def __init__(self, names: Sequence[str], problem: JambulskegError) -> None:
        self.names, self.problem = names, problem
        more = f" and {len(names) - 1} others" if len(names) > 1 else ""
        super().__init__(
            f"part {names[0]}{more} has no answer that holds, though it was given out {TRIALS} times: {problem}; what "
            "was solved is kept, and --resume goes on from it"
        )


@dataclass(frozen=True)
class Round:
    """The parts that are solved side by side, and how each is searched; the number names their answers. `lists` are the
    routes that the vans of each part have so far. At most `jobs` processes of Python prepare them."""

    region: Region
    number: int
    parts: Sequence[Part]
    effort: Effort
    lists: Optional[Sequence[Lists]] = None
    jobs: int = 1

    def given(self, at: int) -> Given:
        """What is given out of a part."""
        lists = None if self.lists is None else self.lists[at]
        return given_of(self.region, self.parts[at], self.effort, lists)

    def name(self, at: int) -> str:
        """What the answer of a part is called."""
        return f"{self.number:04}-{at:04}"


def solve_parts(
    asked: Round, crew: Crew, store: Store, judge: Judge[T], program: ProgramLike = None
) -> List[T]:
    """What the checked solution of each part comes to, in their order.

    Answers that the folder has are taken, after the check; all others are solved and kept there as they come. What
    ended by an accident, or was refused by the check, is given out again. Raises `NotSolved`, `EngineFailed`,
    `Refused`, `OSError`.
    """
    make = lru_cache(maxsize=KEPT)(asked.given)
    with ahead(make, len(asked.parts), asked.jobs) as given:
        taking = Taking(asked, store, judge, program_of(program), given)
        for at in range(len(asked.parts)):
            kept = answer_kept(store.read(f"answers/{asked.name(at)}.json"))
            if kept is not None:
                taking.take(at, kept, keep=False)
        for _ in range(TRIALS):
            if taking.left():
                taking.give_out(crew)
    left = taking.left()
    if left:
        raise NotSolved([asked.name(at) for at in left], taking.problems[left[0]])
    return [taking.outcomes[at] for at in range(len(asked.parts))]


class Taking(Generic[T]):
    """What the parts of a round have come to so far, and what was wrong with the others."""

    def __init__(
        self, asked: Round, store: Store, judge: Judge[T], program: Program, given: Callable[[int], Given]
    ) -> None:
        self._asked, self._store, self._judge, self._program, self._given = asked, store, judge, program, given
        self.outcomes: Dict[int, T] = {}
        self.problems: Dict[int, JambulskegError] = {}

    def left(self) -> List[int]:
        """The parts without an answer that holds."""
        return [at for at in range(len(self._asked.parts)) if at not in self.outcomes]

    def take(self, at: int, answer: Answer, *, keep: bool = True) -> None:
        """Checks an answer, and takes it if it holds."""
        given = self._given(at)
        solution = checked(given, answer, self._program)
        if isinstance(solution, JambulskegError):
            self.problems[at] = solution
            return
        if keep:
            self._store.write(f"answers/{self._asked.name(at)}.json", text_kept(solution))
        self.outcomes[at] = self._judge(at, given, solution)

    def give_out(self, crew: Crew) -> None:
        """Gives out the parts that are left, and takes answers as they come, some at a time, since each waits for the
        program that checks it."""
        left, tasks = self.left(), []  # type: List[int], List[Future[None]]
        try:
            with ThreadPoolExecutor(max_workers=CHECKS) as pool, closing(
                crew.each(len(left), lambda place: self._given(left[place]).question)
            ) as answers:
                for place, answer in answers:
                    for task in tasks:
                        if task.done():
                            task.result()
                    tasks = [task for task in tasks if not task.done()]
                    tasks.append(pool.submit(self.take, left[place], answer))
        except EngineFailed as problem:
            self.problems.update({at: problem for at in self.left()})
        for task in tasks:
            task.result()


def answer_kept(kept: object) -> Optional[Answer]:
    """The answer of a part as its file has it, None where there is none that can be read."""
    if kept == NONE:
        return NoFirstSolution("the construction found none")
    try:
        return None if kept is None else Solution.of(kept)
    except Refused:
        return None


def text_kept(solution: Optional[Solution]) -> str:
    """The answer of a part as its file keeps it."""
    return json.dumps(NONE) if solution is None else solution.text()


def checked(given: Given, answer: Answer, program: Program) -> Union[Solution, None, JambulskegError]:
    """A solution that the check finds to meet its model, None where the construction finds none, or what is wrong.
    Raises `Refused` where the model has a fault."""
    if isinstance(answer, Refused):
        raise answer
    if isinstance(answer, NoFirstSolution):
        return None
    if isinstance(answer, JambulskegError):
        return answer
    try:
        return agreed(beside(given.model, answer), answer, program)
    except JambulskegError as problem:
        return problem


def beside(model: str, solution: Solution) -> str:
    """What `check` reads: the text of a model, and a solution of it."""
    return f'{{"model":{model},"solution":{solution.text()}}}'


def agreed(text: str, solution: Solution, program: Program) -> Solution:
    """The solution itself, which stands in what `check` reads. Raises as `model.meets` does."""
    try:
        tree = program.ask(["check"], text)
    except NotMet as broken:
        finding = Finding(None, broken.rule, broken.vehicle, broken.place)
        raise NotMet(broken.rule, broken.vehicle, broken.place, explain(finding, solution)) from None
    if not isinstance(tree, dict) or tree.get("cost") != solution.cost:
        raise ProgramFailed("the program wrote a finding that cannot be read")
    return solution
