"""Two vans that take 15 each bring everything of four: they come back to the depot to load again. As in OR-Tools' sample
of reloads, refills are copies of the depot that nobody has to visit, and customers use no slack. Prints 6208 metres."""

from city import DEMANDS, DISTANCES

from jambulskeg.routing import pywrapcp, routing_enums_pb2

REFILLS = range(len(DISTANCES), len(DISTANCES) + 4)
CAPACITY = 15


def main():
    manager = pywrapcp.RoutingIndexManager(len(DISTANCES) + len(REFILLS), 2, 0)
    routing = pywrapcp.RoutingModel(manager)

    def place(index):
        node = manager.IndexToNode(index)
        return 0 if node in REFILLS else node

    def distance(from_index, to_index):
        return DISTANCES[place(from_index)][place(to_index)]

    def demand(from_index):
        return -CAPACITY if manager.IndexToNode(from_index) in REFILLS else DEMANDS[place(from_index)]

    routing.SetArcCostEvaluatorOfAllVehicles(routing.RegisterTransitCallback(distance))
    routing.AddDimension(routing.RegisterUnaryTransitCallback(demand), CAPACITY, CAPACITY, True, "Load")
    load = routing.GetDimensionOrDie("Load")
    for node in REFILLS:
        routing.AddDisjunction([manager.NodeToIndex(node)], 0)
    for node in range(1, len(DISTANCES)):
        load.SlackVar(manager.NodeToIndex(node)).SetValue(0)

    parameters = pywrapcp.DefaultRoutingSearchParameters()
    parameters.first_solution_strategy = routing_enums_pb2.FirstSolutionStrategy.PARALLEL_CHEAPEST_INSERTION
    parameters.local_search_metaheuristic = routing_enums_pb2.LocalSearchMetaheuristic.GUIDED_LOCAL_SEARCH
    parameters.tries = 3000000
    solution = routing.SolveWithParameters(parameters)
    if not solution:
        print("no solution found")
        return

    for vehicle in range(routing.vehicles()):
        index, stops = routing.Start(vehicle), []
        while not routing.IsEnd(index):
            stops.append(f"{place(index)} with {solution.Value(load.CumulVar(index))}")
            index = solution.Value(routing.NextVar(index))
        print(f"van {vehicle}:", ", ".join(stops))
    print(f"total: {solution.ObjectiveValue()} metres")


if __name__ == "__main__":
    main()
