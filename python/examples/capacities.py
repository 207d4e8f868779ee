"""Four vehicles that take 15 each bring sixteen places what they ask for. Prints 6208 metres."""

from city import DEMANDS, DISTANCES, between, print_routes

from jambulskeg.routing import pywrapcp, routing_enums_pb2


def main():
    manager = pywrapcp.RoutingIndexManager(len(DISTANCES), 4, 0)
    routing = pywrapcp.RoutingModel(manager)
    routing.SetArcCostEvaluatorOfAllVehicles(routing.RegisterTransitCallback(between(manager, DISTANCES)))

    def demand(from_index):
        return DEMANDS[manager.IndexToNode(from_index)]

    routing.AddDimensionWithVehicleCapacity(
        routing.RegisterUnaryTransitCallback(demand), 0, [15, 15, 15, 15], True, "Capacity"
    )

    parameters = pywrapcp.DefaultRoutingSearchParameters()
    parameters.first_solution_strategy = routing_enums_pb2.FirstSolutionStrategy.PATH_CHEAPEST_ARC
    parameters.local_search_metaheuristic = routing_enums_pb2.LocalSearchMetaheuristic.GUIDED_LOCAL_SEARCH
    parameters.time_limit.FromSeconds(1)
    solution = routing.SolveWithParameters(parameters)
    if not solution:
        print("no solution found")
        return

    print_routes(manager, routing, solution)
    print(f"total: {solution.ObjectiveValue()} metres")


if __name__ == "__main__":
    main()
