"""Files of others as models: Solomon, Li and Lim, VRPLIB with fractions, OSRM's table, VROOM. Prints what each day costs:
1051, 383, 110, 6 and 405."""

import os

from jambulskeg.formats import read_li_lim, read_osrm, read_solomon, read_vroom, read_vrplib
from jambulskeg.model import Model, Vehicle, solve

FOLDER = os.path.join(os.path.dirname(os.path.abspath(__file__)), "others")


def file(name):
    return os.path.join(FOLDER, name)


def main():
    table = read_osrm(file("table.osrm.json"), seconds=60)
    roads = Model(nodes=len(table.durations), matrices=[table.durations], vehicles=[Vehicle(0, 0)])
    days = {
        "solomon": read_solomon(file("windows.solomon.txt")),
        "li and lim": read_li_lim(file("pairs.li-lim.txt")),
        "vrplib": read_vrplib(file("fractions.vrp"), factor=10),
        "osrm": roads,
        "vroom": read_vroom(file("jobs.vroom.json")).model,
    }
    for name, model in days.items():
        print(f"{name}: {solve(model).cost}")
    for tail, head in table.no_road:
        print(f"osrm knows no road from {tail} to {head}")


if __name__ == "__main__":
    main()
