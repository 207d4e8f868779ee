"""Four vehicles visit sixteen places, each within its window. Prints 71 minutes.

No construction finds a first solution of this model. The search then lets visits be left out at a penalty that is
above what any day costs, and brings all of them in; `routing.rescued.sentence` tells it.
"""

from city import DRIVES, WINDOWS, between

from jambulskeg.routing import pywrapcp, routing_enums_pb2


def main():
    manager = pywrapcp.RoutingIndexManager(len(DRIVES), 4, 0)
    routing = pywrapcp.RoutingModel(manager)
    minutes = routing.RegisterTransitCallback(between(manager, DRIVES))
    routing.SetArcCostEvaluatorOfAllVehicles(minutes)
    routing.AddDimension(minutes, 30, 30, False, "Time")
    time = routing.GetDimensionOrDie("Time")
    for node, window in enumerate(WINDOWS):
        if node != 0:
            time.CumulVar(manager.NodeToIndex(node)).SetRange(*window)
    for vehicle in range(routing.vehicles()):
        time.CumulVar(routing.Start(vehicle)).SetRange(*WINDOWS[0])
        routing.AddVariableMinimizedByFinalizer(time.CumulVar(routing.Start(vehicle)))
        routing.AddVariableMinimizedByFinalizer(time.CumulVar(routing.End(vehicle)))

    parameters = pywrapcp.DefaultRoutingSearchParameters()
    parameters.first_solution_strategy = routing_enums_pb2.FirstSolutionStrategy.PATH_CHEAPEST_ARC
    solution = routing.SolveWithParameters(parameters)
    if not solution:
        print("no solution found")
        return

    total = 0
    for vehicle in range(routing.vehicles()):
        index, stops = routing.Start(vehicle), []
        while not routing.IsEnd(index):
            cumul = time.CumulVar(index)
            stops.append(f"{manager.IndexToNode(index)} at {solution.Min(cumul)} to {solution.Max(cumul)}")
            index = solution.Value(routing.NextVar(index))
        end = solution.Min(time.CumulVar(index))
        print(f"vehicle {vehicle}:", " -> ".join([*stops, f"{manager.IndexToNode(index)} at {end}"]))
        total += end
    print(f"found {routing.rescued.sentence}")
    print(f"arcs: {solution.ObjectiveValue()} minutes, ends: {total} minutes")


if __name__ == "__main__":
    main()
