"""The day of time_windows.py with a pause of two minutes for each driver, and no work at a place. Prints 71 minutes."""

from city import DRIVES, WINDOWS, between

from jambulskeg.routing import pywrapcp, routing_enums_pb2


def main():
    manager = pywrapcp.RoutingIndexManager(len(DRIVES), 4, 0)
    routing = pywrapcp.RoutingModel(manager)
    minutes = routing.RegisterTransitCallback(between(manager, DRIVES))
    routing.SetArcCostEvaluatorOfAllVehicles(minutes)
    routing.AddDimension(minutes, 30, 30, False, "Time")
    time = routing.GetDimensionOrDie("Time")
    for node, window in enumerate(WINDOWS[1:], 1):
        time.CumulVar(manager.NodeToIndex(node)).SetRange(*window)
    work = [0] * routing.Size()
    for vehicle in range(manager.GetNumberOfVehicles()):
        time.CumulVar(routing.Start(vehicle)).SetRange(*WINDOWS[0])
        pause = routing.solver().FixedDurationIntervalVar(5, 15, 2, False, f"pause of vehicle {vehicle}")
        time.SetBreakIntervalsOfVehicle([pause], vehicle, work)

    parameters = pywrapcp.DefaultRoutingSearchParameters()
    parameters.first_solution_strategy = routing_enums_pb2.FirstSolutionStrategy.PATH_CHEAPEST_ARC
    parameters.local_search_metaheuristic = routing_enums_pb2.LocalSearchMetaheuristic.GUIDED_LOCAL_SEARCH
    solution = routing.SolveWithParameters(parameters)
    if not solution:
        print("no solution found")
        return

    for vehicle in range(routing.vehicles()):
        index, stops = routing.Start(vehicle), []
        while not routing.IsEnd(index):
            stops.append(f"{manager.IndexToNode(index)} at {solution.Value(time.CumulVar(index))}")
            index = solution.Value(routing.NextVar(index))
        end = solution.Value(time.CumulVar(index))
        print(f"vehicle {vehicle}:", " -> ".join([*stops, f"{manager.IndexToNode(index)} at {end}"]))
    pauses = solution.IntervalVarContainer()
    for place in range(pauses.Size()):
        pause = pauses.Element(place)
        if pause.PerformedValue():
            print(f"{pause.Var().Name()}: from {pause.StartValue()} for {pause.DurationValue()}")
    print(f"arcs: {solution.ObjectiveValue()} minutes")


if __name__ == "__main__":
    main()
