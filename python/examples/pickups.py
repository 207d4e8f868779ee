"""Four vehicles pick eight things up and deliver them, in any order, the last one in first out, the first one in first
out. Prints 210504, 210504 and 210892: metres, and 100 for each metre of the longest route."""

from city import DISTANCES, PICKUPS, between, print_routes

from jambulskeg.routing import pywrapcp, routing_enums_pb2

POLICIES = {
    "any order": pywrapcp.RoutingModel.PICKUP_AND_DELIVERY_NO_ORDER,
    "last in, first out": pywrapcp.RoutingModel.PICKUP_AND_DELIVERY_LIFO,
    "first in, first out": pywrapcp.RoutingModel.PICKUP_AND_DELIVERY_FIFO,
}


def solve(policy):
    manager = pywrapcp.RoutingIndexManager(len(DISTANCES), 4, 0)
    routing = pywrapcp.RoutingModel(manager)
    metres = routing.RegisterTransitCallback(between(manager, DISTANCES))
    routing.SetArcCostEvaluatorOfAllVehicles(metres)
    routing.AddDimension(metres, 0, 3000, True, "Distance")
    distance = routing.GetDimensionOrDie("Distance")
    distance.SetGlobalSpanCostCoefficient(100)
    for pickup, delivery in PICKUPS:
        start, end = manager.NodeToIndex(pickup), manager.NodeToIndex(delivery)
        routing.AddPickupAndDelivery(start, end)
        routing.solver().Add(routing.VehicleVar(start) == routing.VehicleVar(end))
        routing.solver().Add(distance.CumulVar(start) <= distance.CumulVar(end))
    routing.SetPickupAndDeliveryPolicyOfAllVehicles(policy)

    parameters = pywrapcp.DefaultRoutingSearchParameters()
    parameters.first_solution_strategy = routing_enums_pb2.FirstSolutionStrategy.PARALLEL_CHEAPEST_INSERTION
    parameters.local_search_metaheuristic = routing_enums_pb2.LocalSearchMetaheuristic.GUIDED_LOCAL_SEARCH
    return manager, routing, routing.SolveWithParameters(parameters)


def main():
    for name, policy in POLICIES.items():
        manager, routing, solution = solve(policy)
        if not solution:
            print(f"{name}: no solution found")
            continue
        print_routes(manager, routing, solution)
        print(f"{name}: {solution.ObjectiveValue()}")


if __name__ == "__main__":
    main()
