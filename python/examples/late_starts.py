"""The day of time_windows.py where drivers may begin until 10 and are paid by the minute, waiting too.

Prints what drives and minutes cost: 153 where all begin as early as they may, 150 where the same routes have their
shortest schedules, and 148 where the search has each driver begin as late as the end of the day lets him.
"""

from city import DRIVES, WINDOWS, between

from jambulskeg.complete import shorten
from jambulskeg.model import ScheduleRule, spans
from jambulskeg.routing import pywrapcp, routing_enums_pb2


def solve(schedule):
    manager = pywrapcp.RoutingIndexManager(len(DRIVES), 4, 0)
    routing = pywrapcp.RoutingModel(manager)
    routing.schedule = schedule
    minutes = routing.RegisterTransitCallback(between(manager, DRIVES))
    routing.SetArcCostEvaluatorOfAllVehicles(minutes)
    routing.AddDimension(minutes, 30, 30, False, "Time")
    time = routing.GetDimensionOrDie("Time")
    time.SetSpanCostCoefficientForAllVehicles(1)
    for node, window in enumerate(WINDOWS[1:], 1):
        time.CumulVar(manager.NodeToIndex(node)).SetRange(*window)
    for vehicle in range(routing.vehicles()):
        time.CumulVar(routing.Start(vehicle)).SetRange(0, 10)

    parameters = pywrapcp.DefaultRoutingSearchParameters()
    parameters.local_search_metaheuristic = routing_enums_pb2.LocalSearchMetaheuristic.GUIDED_LOCAL_SEARCH
    return routing.SolveWithParameters(parameters)


def main():
    early, late = solve(ScheduleRule.EARLIEST), solve(ScheduleRule.TIGHT)
    if not early or not late:
        print("no solution found")
        return
    for span in spans(early.model, early.solution):
        print(f"vehicle {span.vehicle}: {span.printed} minutes, and {span.least} would do")
    print(f"earliest: {early.ObjectiveValue()}")
    print(f"shortened: {shorten(early.model, early.solution).cost}")
    print(f"tight: {late.ObjectiveValue()}")


if __name__ == "__main__":
    main()
