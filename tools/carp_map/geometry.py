"""Distances, directions and flat positions of places on the Earth.

A place is a pair of a latitude and a longitude in degrees. Distances are those of a sphere with the mean radius of the
Earth, which differ from those of the true shape by less than 0.6 percent.
"""
import math
from collections.abc import Iterable, Sequence

Place = tuple[float, float]

EARTH_RADIUS = 6_371_008.8

# The least change of direction in degrees that is called a turn, a sharp turn, and a turn back.
TURN, SHARP, BACK = 30.0, 120.0, 170.0


def haversine(a: Place, b: Place) -> float:
    """Returns the distance between two places in metres."""
    north = math.radians(b[0] - a[0])
    east = math.radians(b[1] - a[1])
    narrowing = math.cos(math.radians(a[0])) * math.cos(math.radians(b[0]))
    share = math.sin(north / 2) ** 2 + narrowing * math.sin(east / 2) ** 2
    return 2 * EARTH_RADIUS * math.asin(min(1.0, math.sqrt(share)))


def length(points: Sequence[Place]) -> float:
    """Returns the length of a line through places in metres."""
    return math.fsum(haversine(a, b) for a, b in zip(points, points[1:]))


def bearing(a: Place, b: Place) -> float:
    """Returns the direction from one place to another in degrees clockwise from north, from 0 to below 360.

    From a place to itself it is 0.
    """
    north, south = math.radians(a[0]), math.radians(b[0])
    east = math.radians(b[1] - a[1])
    across = math.sin(east) * math.cos(south)
    along = math.cos(north) * math.sin(south) - math.sin(north) * math.cos(south) * math.cos(east)
    angle = math.degrees(math.atan2(across, along)) % 360.0
    # A tiny negative angle is rounded to 360 itself.
    return 0.0 if angle == 360.0 else angle


def turn(before: float, after: float) -> str:
    """Returns in words how the direction changes between two bearings."""
    change = (after - before + 180.0) % 360.0 - 180.0
    if abs(change) < TURN:
        return "straight on"
    if abs(change) >= BACK:
        return "back"
    side = "right" if change > 0 else "left"
    return f"sharp {side}" if abs(change) >= SHARP else side


def departure(points: Sequence[Place]) -> float:
    """Returns the bearing in which a line through places begins; 0 if it never leaves its first place."""
    return next((bearing(points[0], point) for point in points[1:] if point != points[0]), 0.0)


def arrival(points: Sequence[Place]) -> float:
    """Returns the bearing in which a line through places ends; 0 if it never leaves its last place."""
    return next((bearing(point, points[-1]) for point in reversed(points[:-1]) if point != points[-1]), 0.0)


class Projection:
    """Flat positions in metres, x to the east and y to the south as in a picture, around the middle of some places.

    Distances across a town are kept to a small part of a percent.
    """

    def __init__(self, places: Iterable[Place]) -> None:
        """Takes the middle of the places as the origin; there has to be at least one place."""
        latitudes, longitudes = zip(*places)
        self.latitude = (min(latitudes) + max(latitudes)) / 2
        self.longitude = (min(longitudes) + max(longitudes)) / 2
        self.metres = math.radians(1.0) * EARTH_RADIUS
        self.narrowing = math.cos(math.radians(self.latitude))

    def flat(self, place: Place) -> tuple[float, float]:
        """Returns the position of a place in the picture."""
        return (place[1] - self.longitude) * self.metres * self.narrowing, (self.latitude - place[0]) * self.metres
