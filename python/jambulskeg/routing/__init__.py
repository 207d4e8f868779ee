"""OR-Tools' routing scripts on vr_cli: a script runs after its two import lines are changed to

    from jambulskeg.routing import pywrapcp, routing_enums_pb2

What cannot be had is refused by name (`jambulskeg.errors.Unsupported`), never ignored; python/OR-TOOLS.md goes through
it call by call.
"""

from . import pywrapcp, routing_enums_pb2

__all__ = ["pywrapcp", "routing_enums_pb2"]
