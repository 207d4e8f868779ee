"""Four vehicles that take 15 each cannot bring everything; a place that is left out costs 1000. Prints 7548: metres,
and the penalties of two places."""

from city import DISTANCES, GREATER_DEMANDS, between, print_routes

from jambulskeg.routing import pywrapcp, routing_enums_pb2


def main():
    manager = pywrapcp.RoutingIndexManager(len(DISTANCES), 4, 0)
    routing = pywrapcp.RoutingModel(manager)
    routing.SetArcCostEvaluatorOfAllVehicles(routing.RegisterTransitCallback(between(manager, DISTANCES)))

    def demand(from_index):
        return GREATER_DEMANDS[manager.IndexToNode(from_index)]

    routing.AddDimensionWithVehicleCapacity(
        routing.RegisterUnaryTransitCallback(demand), 0, [15, 15, 15, 15], True, "Capacity"
    )
    for node in range(1, len(DISTANCES)):
        routing.AddDisjunction([manager.NodeToIndex(node)], 1000)

    parameters = pywrapcp.DefaultRoutingSearchParameters()
    parameters.first_solution_strategy = routing_enums_pb2.FirstSolutionStrategy.PATH_CHEAPEST_ARC
    parameters.local_search_metaheuristic = routing_enums_pb2.LocalSearchMetaheuristic.GUIDED_LOCAL_SEARCH
    solution = routing.SolveWithParameters(parameters)
    if not solution:
        print("no solution found")
        return

    print_routes(manager, routing, solution)
    dropped = [
        manager.IndexToNode(index) for index in range(routing.Size())
        if not routing.IsStart(index) and solution.Value(routing.NextVar(index)) == index
    ]
    print("left out:", *dropped)
    print(f"objective: {solution.ObjectiveValue()}")


if __name__ == "__main__":
    main()
