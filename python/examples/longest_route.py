"""Four vehicles visit sixteen places so that the longest of their routes is short. Prints 1552 metres."""

from city import DISTANCES, between, print_routes

from jambulskeg.routing import pywrapcp, routing_enums_pb2


def main():
    manager = pywrapcp.RoutingIndexManager(len(DISTANCES), 4, 0)
    routing = pywrapcp.RoutingModel(manager)
    metres = routing.RegisterTransitCallback(between(manager, DISTANCES))
    routing.SetArcCostEvaluatorOfAllVehicles(metres)
    routing.AddDimension(metres, 0, 3000, True, "Distance")
    distance = routing.GetDimensionOrDie("Distance")
    distance.SetGlobalSpanCostCoefficient(100)

    parameters = pywrapcp.DefaultRoutingSearchParameters()
    parameters.first_solution_strategy = routing_enums_pb2.FirstSolutionStrategy.PATH_CHEAPEST_ARC
    parameters.local_search_metaheuristic = routing_enums_pb2.LocalSearchMetaheuristic.GUIDED_LOCAL_SEARCH
    solution = routing.SolveWithParameters(parameters)
    if not solution:
        print("no solution found")
        return

    print_routes(manager, routing, solution)
    ends = [solution.Value(distance.CumulVar(routing.End(vehicle))) for vehicle in range(routing.vehicles())]
    print(f"longest: {max(ends)} metres")


if __name__ == "__main__":
    main()
