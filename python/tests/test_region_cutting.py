"""How a region is cut if the vans near its visits are too few for them."""

from __future__ import annotations

import unittest

from jambulskeg.places import Place, Roads, Van
from jambulskeg.region import Region, cut
from jambulskeg.region.cutting import NEAR_SITES


class FullSitesTests(unittest.TestCase):
    def test_visits_go_to_far_vans_if_all_near_sites_are_full(self) -> None:
        depots = [Place(f"depot {number}", 10 * number, 0) for number in range(NEAR_SITES)]
        depots.append(Place("far", 5000, 0))
        visits = [Place(f"visit {number}", number, 20, 1) for number in range(60)]
        vans = [Van(f"van {depot.name}", depot.name, depot.name, 10) for depot in depots[:-1]]
        vans += [Van(f"far {number}", "far", "far", 10) for number in range(4)]
        region = Region((*depots, *visits), tuple(vans), Roads())
        parts = cut(region, 12)
        for part in parts:
            self.assertLessEqual(len(part.visits), 10 * len(part.vans))
        near = sum(len(part.visits) for part in parts if part.vans[0] < NEAR_SITES)
        self.assertEqual(sum(len(part.visits) for part in parts), 60)
        self.assertGreaterEqual(near, 36)

    def test_without_vans_anywhere_the_nearest_site_takes_all(self) -> None:
        depots = [Place(f"depot {number}", 100 * number, 0) for number in range(2)]
        visits = [Place(f"visit {number}", number, 20, 1) for number in range(30)]
        vans = [Van(f"van {depot.name}", depot.name, depot.name, 10) for depot in depots]
        parts = cut(Region((*depots, *visits), tuple(vans), Roads()), 15)
        self.assertEqual(sum(len(part.visits) for part in parts), 30)


if __name__ == "__main__":
    unittest.main()
