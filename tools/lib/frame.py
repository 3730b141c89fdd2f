"""A frame: a square piece of the Earth, laid on the grid of the program.

The centre of the frame is the middle of the grid, north is up, and the plane is azimuthal and equidistant: from the centre
distances and directions are true. Between other places they are a little long, the more the farther from the centre.
The ellipsoid (WGS 84) is first laid on a sphere that touches it along the centre's parallel, after C. F. Gauss; near the
centre that keeps lengths to a few parts in a million.
"""
from __future__ import annotations

import math
from typing import Callable, NamedTuple, Optional

# points of the grid each way; the last is one less
WIDTH = 1 << 20
LEVELS = WIDTH.bit_length() - 1
MIDDLE = WIDTH // 2
EQUATOR = 6378137.0
FLATTENING = 1 / 298.257223563
SQUARE = FLATTENING * (2 - FLATTENING)
ECCENTRICITY = math.sqrt(SQUARE)
# to each side; half the way round the Earth
MOST_KILOMETRES = 20038.0


class Sphere(NamedTuple):
    """The sphere that stands for the ellipsoid round a latitude, and how latitudes and longitudes go over to it."""
    radius: float
    stretch: float
    shift: float
    sine: float
    cosine: float

    @classmethod
    def at(cls, latitude: float) -> Sphere:
        sine = math.sin(math.radians(latitude))
        bend = 1 - SQUARE * sine * sine
        radius = EQUATOR * math.sqrt(1 - SQUARE) / bend
        stretch = math.sqrt(1 + SQUARE / (1 - SQUARE) * (1 - sine * sine) ** 2)
        there = sine / stretch
        if abs(sine) == 1:
            shift = math.copysign(ECCENTRICITY * math.atanh(ECCENTRICITY), sine)
        else:
            shift = math.atanh(there) - stretch * isometric(sine)
        return cls(radius, stretch, shift, there, math.sqrt(1 - there * there))


def isometric(sine: float) -> float:
    """The isometric latitude, by the sine of a latitude that is no pole's."""
    return math.atanh(sine) - ECCENTRICITY * math.atanh(ECCENTRICITY * sine)


class Frame:
    """A centre, and how many kilometres the frame reaches to each side of it."""

    def __init__(self, latitude: float, longitude: float, kilometres: float) -> None:
        if not -90 <= latitude <= 90:
            raise ValueError(f"its latitude {latitude:g} isn't from -90 to 90")
        if not -360 <= longitude <= 360:
            raise ValueError(f"its longitude {longitude:g} isn't from -360 to 360")
        if not 0.001 <= kilometres <= MOST_KILOMETRES:
            raise ValueError(f"its {kilometres:g} km to each side aren't from 0.001 to {MOST_KILOMETRES:g}")
        self.latitude, self.longitude, self.kilometres = latitude, longitude, kilometres
        # metres from one point of the grid to the next
        self.step = 2000 * kilometres / WIDTH
        self.sphere = Sphere.at(latitude)

    @classmethod
    def read(cls, word: str) -> Frame:
        """The frame that LAT,LON,KM says."""
        numbers = word.split(",")
        if len(numbers) != 3:
            raise ValueError("it is three numbers, LAT,LON,KM")
        try:
            return cls(*map(float, numbers))
        except ValueError as error:
            if "could not convert" in str(error):
                raise ValueError("its parts are numbers, LAT,LON,KM") from None
            raise

    def plane(self) -> Callable[[float, float], tuple[float, float]]:
        """The function from a latitude and a longitude in degrees to metres east and north of the centre."""
        radius, stretch, shift, sine0, cosine0 = self.sphere
        middle, e = self.longitude, ECCENTRICITY
        sin, cos, atanh, tanh, cosh, atan2 = math.sin, math.cos, math.atanh, math.tanh, math.cosh, math.atan2
        degree, turned = math.pi / 180, math.pi / 180 * stretch

        def place(latitude: float, longitude: float) -> tuple[float, float]:
            sine = sin(latitude * degree)
            if -1 < sine < 1:
                raised = stretch * (atanh(sine) - e * atanh(e * sine)) + shift
                sine, cosine = tanh(raised), 1 / cosh(raised)
            else:
                cosine = 0.0
            turn = ((longitude - middle + 180) % 360 - 180) * turned
            along = cosine * cos(turn)
            east, north = cosine * sin(turn), cosine0 * sine - sine0 * along
            over = math.hypot(east, north)
            if over < 1e-14:
                return 0.0, (0.0 if sine0 * sine + cosine0 * along > 0 else math.pi * radius)
            scale = radius * atan2(over, sine0 * sine + cosine0 * along) / over
            return east * scale, north * scale
        return place

    def grid(self) -> Callable[[float, float], Optional[tuple[int, int]]]:
        """The function from a latitude and a longitude to a point of the grid, None outside of the frame."""
        place, steps, middle = self.plane(), 1 / self.step, MIDDLE + 0.5

        def point(latitude: float, longitude: float) -> Optional[tuple[int, int]]:
            east, north = place(latitude, longitude)
            x, y = math.floor(east * steps + middle), math.floor(north * steps + middle)
            return (x, y) if 0 <= x < WIDTH and 0 <= y < WIDTH else None
        return point

    def place(self, x: float, y: float) -> tuple[float, float]:
        """The latitude and longitude of a point of the grid, in degrees; ValueError where the Earth has none for it."""
        radius, stretch, shift, sine0, cosine0 = self.sphere
        east, north = (x - MIDDLE) * self.step, (y - MIDDLE) * self.step
        far = math.hypot(east, north)
        if far == 0:
            return self.latitude, turned_in(self.longitude)
        if far > math.pi * radius:
            raise ValueError(f"({x} {y}) is no place of the Earth in this frame")
        sine_far, cosine_far = math.sin(far / radius), math.cos(far / radius)
        sine = cosine_far * sine0 + north * sine_far * cosine0 / far
        turn = math.atan2(east * sine_far, far * cosine0 * cosine_far - north * sine0 * sine_far)
        return self._latitude(sine), turned_in(self.longitude + math.degrees(turn) / stretch)

    def _latitude(self, sine: float) -> float:
        if not -1 < sine < 1:
            return math.copysign(90.0, sine)
        raised = (math.atanh(sine) - self.sphere.shift) / self.sphere.stretch
        found = math.tanh(raised)
        for _ in range(8):
            found = math.tanh(raised + ECCENTRICITY * math.atanh(ECCENTRICITY * found))
        return math.degrees(math.asin(found))

    def metres(self, gap: float) -> float:
        """The metres of a gap, a squared number of steps."""
        return math.sqrt(gap) * self.step

    def stretched(self) -> float:
        """How much too long a distance between two places of the frame is at most, as a part of it; the worst is a corner's."""
        angle = math.sqrt(2) * 1000 * self.kilometres / self.sphere.radius
        return angle / math.sin(angle) - 1 if angle < math.pi * 0.75 else math.inf

    def off_centre(self) -> float:
        """How much a distance from the centre is off at most, as a part of it, by places all over the frame."""
        worst = 0.0
        for part in (0.25, 0.5, 0.75, 1.0):
            for turn in range(24):
                angle = math.radians(15 * turn)
                side = part * MIDDLE / max(abs(math.cos(angle)), abs(math.sin(angle)))
                far = side * self.step
                if far < 0.75 * math.pi * self.sphere.radius:
                    there = self.place(MIDDLE + side * math.cos(angle), MIDDLE + side * math.sin(angle))
                    worst = max(worst, abs(far / ellipsoid_distance(self.latitude, self.longitude, *there) - 1))
        return worst


def turned_in(longitude: float) -> float:
    """A longitude from -180 to 180."""
    return (longitude + 180) % 360 - 180


def ellipsoid_distance(latitude: float, longitude: float, other_latitude: float, other_longitude: float) -> float:
    """Metres between two places of the ellipsoid, after W. D. Lambert: a few parts in 100,000 off at most."""
    flat = 1 - FLATTENING
    one, two = (math.atan(flat * math.tan(math.radians(it))) for it in (latitude, other_latitude))
    turn = math.radians(other_longitude - longitude)
    half = math.sin((two - one) / 2) ** 2 + math.cos(one) * math.cos(two) * math.sin(turn / 2) ** 2
    angle = 2 * math.asin(math.sqrt(min(1.0, half)))
    if angle == 0:
        return 0.0
    middle, apart = (one + two) / 2, (two - one) / 2
    first = (angle - math.sin(angle)) * (math.sin(middle) * math.cos(apart) / math.cos(angle / 2)) ** 2
    second = (angle + math.sin(angle)) * (math.cos(middle) * math.sin(apart) / math.sin(angle / 2)) ** 2
    return EQUATOR * (angle - FLATTENING / 2 * (first + second))
