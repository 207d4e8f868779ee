"""A day of three vans from two spreadsheets: places.csv and vans.csv, in kilometres, at 30 km an hour. Costs are
kilometres and 30 for each van that leaves; Lea, who lives far out, may be left out for 60, and is. Prints 237."""

import os

from jambulskeg.complete import leave_later
from jambulskeg.doubts import doubts
from jambulskeg.model import Improve, Search
from jambulskeg.places import Roads, model_of_day, read_day
from jambulskeg.rescue import rescue

FOLDER = os.path.dirname(os.path.abspath(__file__))


def clock(minutes):
    """A time of day."""
    return f"{minutes // 60}:{minutes % 60:02}"


def main():
    tables = read_day(os.path.join(FOLDER, "places.csv"), os.path.join(FOLDER, "vans.csv"))
    search = Search(improve=Improve.GUIDED_LOCAL_SEARCH, tries=1000000)
    model = model_of_day(tables, Roads(pace=60 / 30, slack_max=120), search)
    for sentence in [*tables.doubts, *(doubt.sentence for doubt in doubts(model))]:
        print("look at:", sentence)

    found = rescue(model)
    if found.solution is None:
        print(found.sentence)
        return
    day = leave_later(model, found.solution)
    for van, route in zip(tables.vans, day.routes):
        stops = zip(route.nodes, route.dimensions[0].cumuls if route.nodes else ())
        print(f"{van.name}:", *(f"{tables.places[node].name} {clock(minutes)}" for node, minutes in stops))
    print("left out:", *(tables.places[node].name for node in day.dropped))
    print(f"total: {day.cost}")


if __name__ == "__main__":
    main()
