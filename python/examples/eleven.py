"""The day of the two spreadsheets, planned anew at eleven: two orders came in. The plan of the morning with both put in
where they cost least is one answer (258), a search finds another; the cheaper one is taken. Prints 253."""

import os

from jambulskeg.model import Improve, Search
from jambulskeg.places import Place, Roads, model_of, read_places, read_vans
from jambulskeg.replan import replan, solve_rest, with_places
from jambulskeg.rescue import rescue

FOLDER = os.path.dirname(os.path.abspath(__file__))
NEW = [
    Place("Mia", -4, 5, demand=1, window=(11 * 60, 14 * 60), service=10),
    Place("Noa", 3, -6, window=(12 * 60, 16 * 60), service=10),
]


def main():
    places = read_places(os.path.join(FOLDER, "places.csv"))
    vans = read_vans(os.path.join(FOLDER, "vans.csv"), places)
    roads = Roads(pace=60 / 30, slack_max=120)
    model = model_of(places, vans, roads, Search(improve=Improve.GUIDED_LOCAL_SEARCH, tries=1000000))
    morning = rescue(model).solution

    rest = replan(model, morning, 11 * 60, new=with_places(model, [*places, *NEW], roads))
    found = solve_rest(rest)
    names = [place.name for place in [*places, *NEW]]
    for van, route in zip(vans, found.whole.routes):
        print(f"{van.name}:", *(names[node] for node in route.nodes))
    for node, old, new in found.moved.moved:
        print(f"{names[node]} goes from {vans[old].name} to {vans[new].name}")
    print(f"the plan of the morning goes on: {found.kept}")
    print(f"total: {found.whole.cost}")


if __name__ == "__main__":
    main()
