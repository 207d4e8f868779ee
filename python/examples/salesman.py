"""A salesman goes round thirteen cities from New York. Prints 7293 miles."""

from city import MILES, TOWNS, between

from jambulskeg.routing import pywrapcp, routing_enums_pb2


def main():
    manager = pywrapcp.RoutingIndexManager(len(MILES), 1, 0)
    routing = pywrapcp.RoutingModel(manager)
    miles = routing.RegisterTransitCallback(between(manager, MILES))
    routing.SetArcCostEvaluatorOfAllVehicles(miles)

    parameters = pywrapcp.DefaultRoutingSearchParameters()
    parameters.first_solution_strategy = routing_enums_pb2.FirstSolutionStrategy.PATH_CHEAPEST_ARC
    parameters.local_search_metaheuristic = routing_enums_pb2.LocalSearchMetaheuristic.GUIDED_LOCAL_SEARCH
    solution = routing.SolveWithParameters(parameters)
    if not solution:
        print("no solution found")
        return

    index = routing.Start(0)
    while not routing.IsEnd(index):
        print(TOWNS[manager.IndexToNode(index)], end=" -> ")
        index = solution.Value(routing.NextVar(index))
    print(TOWNS[manager.IndexToNode(index)])
    print(f"total: {solution.ObjectiveValue()} miles")


if __name__ == "__main__":
    main()
