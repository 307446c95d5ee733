"""Cells, and which of them an area has."""
import csv
import math
from bisect import bisect_left, bisect_right
from dataclasses import dataclass

from .message import NUMBER, Wrong

EARTH = 6371.0088  # the mean radius of the earth, in kilometres
DEGREE = math.pi * EARTH / 180  # a degree of latitude, in kilometres
COLUMNS = ["lac", "ci", "lat", "lon", "radius"]
# how much work the shapes of a message may be, which is some seconds: one for an edge and a cell or a band on its
# latitudes, more if the cell is near the edge, more for a circle and a cell, and one for so many cells that are found
MOST_WORK, NEAR_WORK, CIRCLE_WORK, FOUND_WORK = 6_000_000, 4, 8, 8
MOST_POINTS = 50_000  # of a polygon
# how many bands of latitude a degree has, and what a band without cells has
BANDS, NO_BAND = 10, ([], [], 0.0)
NEAR = 1e-9  # an edge passes through a point where it comes as near, in kilometres


@dataclass(frozen=True)
class Cell:
    """A cell, where it stands, how far it reaches in kilometres, and the codes of the places that it is in."""

    name: str
    row: str
    point: tuple
    radius: float
    codes: dict


class TableFault(Exception):
    """A table that can't be read."""


def rows_of(path, columns):
    """Yields the rows of a table of CSV as a number and a dictionary, whose first columns have these names."""
    try:
        with open(path, encoding="utf-8-sig", newline="") as it:
            rows = csv.reader(it, strict=True)
            names = next(rows, [])
            if names[:len(columns)] != columns or len(set(names)) != len(names):
                raise TableFault(f"{path}: the first row isn't {','.join(columns)}")
            for row in rows:
                if row and len(row) != len(names):
                    raise TableFault(f"{path}: line {rows.line_num} has {len(row)} columns, the first has {len(names)}")
                if row:
                    yield rows.line_num, dict(zip(names, (it.strip() for it in row)))
    except OSError as fault:
        raise TableFault(f"{path}: {fault.strerror}") from None
    except (UnicodeError, csv.Error) as fault:
        raise TableFault(f"{path}: {fault}") from None


def whole(path, line, name, words, most, least=0):
    if not (words.isascii() and words.isdigit() and len(words) <= 5 and least <= int(words) <= most):
        raise TableFault(f"{path}: line {line}: {name} isn't a number from {least} to {most}")
    return int(words)


def measure(path, line, name, words, least, most):
    """Returns a number with a point in it, or None if it is missing."""
    if not words:
        return None
    if not NUMBER.fullmatch(words) or not least <= float(words) <= most:
        raise TableFault(f"{path}: line {line}: {name} isn't a number from {least} to {most}")
    return float(words)


def cells_of(path):
    """Returns the cells of a table, in its order, and the names of its columns of codes."""
    cells, known, codes = [], set(), []
    for line, row in rows_of(path, COLUMNS):
        lac, ci = (whole(path, line, it, row[it], 65535) for it in ("lac", "ci"))
        lat, lon = measure(path, line, "lat", row["lat"], -90, 90), measure(path, line, "lon", row["lon"], -180, 180)
        radius = measure(path, line, "radius", row["radius"], 0, 1000) or 0.0
        if (lat is None) != (lon is None):
            raise TableFault(f"{path}: line {line}: one of lat and lon is missing")
        if (lac, ci) in known:
            raise TableFault(f"{path}: line {line}: an earlier line has this cell")
        known.add((lac, ci))
        codes = list(row)[len(COLUMNS):]
        cells.append(Cell(f"{lac}-{ci}", f"cell,{lac},{ci}", None if lat is None else (lat, lon), radius,
                          {it: row[it].split() for it in codes}))
    if not cells or len(cells) > 65536:
        raise TableFault(f"{path}: it has {len(cells)} cells, and a network has 1 to 65536")
    return cells, codes


def distance(one, two):
    """Returns how far two points are apart on the sphere, in kilometres."""
    (lat1, lon1), (lat2, lon2) = ([math.radians(it) for it in point] for point in (one, two))
    half = math.sin((lat2 - lat1) / 2) ** 2 + math.cos(lat1) * math.cos(lat2) * math.sin((lon2 - lon1) / 2) ** 2
    return 2 * EARTH * math.asin(min(1.0, math.sqrt(half)))


def turned(degrees):
    """Returns a difference of longitudes by the shorter way round."""
    return (degrees + 180) % 360 - 180


class Map:
    """The cells that have a place, by latitude."""

    def __init__(self, cells):
        self.cells = sorted((it for it in cells if it.point), key=lambda it: it.point)
        self.latitudes = [it.point[0] for it in self.cells]
        self.longitudes = [it.point[1] for it in self.cells]
        # at each cell how long a degree of longitude is, and how many degrees of it the cell reaches, a little more
        self.scales = [DEGREE * math.cos(math.radians(it)) for it in self.latitudes]
        self.margins = [(it.radius + NEAR) / scale * (1 + 1e-9) + 1e-9 for it, scale in zip(self.cells, self.scales)]
        self.reach = max((it.radius for it in self.cells), default=0.0) / DEGREE
        self.bands = self.made_bands()
        # the names of the cells that come into each shape: infos in several languages often have the same one
        self.shapes = {}
        self.left = MOST_WORK

    def made_bands(self):
        """Returns of each band of latitude, a part of a degree, its cells by longitude: these longitudes, the cells'
        places, and how many degrees of longitude they reach at most."""
        bands, made = {}, {}
        for at, lat in enumerate(self.latitudes):
            bands.setdefault(math.floor(lat * BANDS), []).append(at)
        for band, places in bands.items():
            places.sort(key=self.longitudes.__getitem__)
            margin = max(self.margins[at] for at in places) + 1e-9
            made[band] = ([self.longitudes[at] for at in places], places, margin)
        return made

    def begin(self):
        """Begins with the shapes of another message."""
        self.left = MOST_WORK

    def spend(self, work, place):
        """Takes work off what the message may still be."""
        self.left -= work
        if self.left < 0:
            raise Wrong(place, "the shapes of the message are too many for so many cells")

    def between(self, south, north):
        """Returns where the cells of some latitudes begin and end."""
        return bisect_left(self.latitudes, south), bisect_right(self.latitudes, north)

    def in_circle(self, circle, place):
        """Returns the names of the cells that come into a circle."""
        if circle not in self.shapes:
            point, radius = circle
            reach = radius / DEGREE + self.reach + 1e-9
            begin, end = self.between(point[0] - reach, point[0] + reach)
            self.spend((end - begin) * CIRCLE_WORK, place)
            self.shapes[circle] = frozenset(it.name for it in self.cells[begin:end]
                                            if distance(point, it.point) <= radius + it.radius)
        return self.found(circle, place)

    def in_polygon(self, points, place):
        """Returns the names of the cells that come into a polygon."""
        if len(points) > MOST_POINTS:
            raise Wrong(place, f"it has over {MOST_POINTS} points")
        key = tuple(points)
        if key not in self.shapes:
            self.shapes[key] = frozenset(self.cells[at].name for at in self.inside(edges_of(points), place))
        return self.found(key, place)

    def found(self, key, place):
        """Returns what was found of a shape."""
        self.spend(len(self.shapes[key]) // FOUND_WORK, place)
        return self.shapes[key]

    def inside(self, edges, place):
        """Returns which cells come into a polygon: inside by the even-odd rule, or with an edge within reach.

        An edge is straight on a map whose degrees of longitude are as long as at the cell. It goes the shorter way
        round the earth. The polygon begins in the west at a bound.
        """
        bound = min(min(it[1], it[3]) for it in edges)
        latitudes, longitudes = self.latitudes, self.longitudes
        inside, near = set(), set()
        for edge in edges:
            lat1, west, lat2, east = edge
            first, last = min(west, east), max(west, east)
            begin, end = bisect_left(latitudes, min(lat1, lat2)), bisect_left(latitudes, max(lat1, lat2))
            self.spend(end - begin, place)
            for at in range(begin, end):
                lon = bound + (longitudes[at] - bound) % 360
                if lon <= last and (lon < first or passes_east(edge, latitudes[at], lon)):
                    inside ^= {at}
            beside = [it for it in self.beside(edge, place) if it not in near]
            self.spend(len(beside) * NEAR_WORK, place)
            near.update(at for at in beside if self.comes_near(at, edge, bound + (longitudes[at] - bound) % 360))
        return inside | near

    def beside(self, edge, place):
        """Returns the cells whose latitudes and longitudes an edge may come near to."""
        lat1, west, lat2, east = edge
        first, last, found = min(west, east), max(west, east), []
        south, north = min(lat1, lat2) - self.reach - 1e-9, max(lat1, lat2) + self.reach + 1e-9
        bands = range(math.floor(south * BANDS), math.floor(north * BANDS) + 1)
        for band in bands if len(bands) < len(self.bands) else self.bands:
            longitudes, places, margin = self.bands.get(band, NO_BAND)
            if last - first + 2 * margin >= 360:
                found += places
                continue
            # from -180 degrees on, up to less than a turn more
            begin = (first - margin + 180) % 360 - 180
            end = begin + last - first + 2 * margin
            found += places[bisect_left(longitudes, begin):bisect_right(longitudes, end)]
            found += places[:bisect_right(longitudes, end - 360)] + places[bisect_left(longitudes, begin + 360):]
        self.spend(min(len(bands), len(self.bands)) + len(found), place)
        return found

    def comes_near(self, at, edge, lon):
        """Whether an edge comes within a cell's reach, at a longitude or a turn before it."""
        lat, scale, margin = self.latitudes[at], self.scales[at], self.margins[at]
        lat1, west, lat2, east = edge
        for turn in (lon, lon - 360):
            if min(west, east) - margin <= turn <= max(west, east) + margin:
                found = away((west - turn) * scale, (lat1 - lat) * DEGREE, (east - turn) * scale, (lat2 - lat) * DEGREE)
                if found <= self.cells[at].radius + NEAR:
                    return True
        return False


def edges_of(points):
    """Returns the edges of a polygon, followed round the earth: of each the latitude and longitude of both ends."""
    edges, east = [], points[0][1]
    for (lat1, lon1), (lat2, lon2) in zip(points, points[1:]):
        west, east = east, east + turned(lon2 - lon1)
        edges.append((lat1, west, lat2, east))
    return edges


def passes_east(edge, lat, lon):
    """Whether an edge that crosses a latitude does so east of a point."""
    lat1, west, lat2, east = edge
    y1, y2 = lat1 - lat, lat2 - lat
    return ((west - lon) * y2 - (east - lon) * y1) * (1 if y2 > y1 else -1) > 0


def away(x1, y1, x2, y2):
    """Returns how far the line between two points passes from the origin."""
    along_x, along_y = x2 - x1, y2 - y1
    square = along_x ** 2 + along_y ** 2
    part = 0.0 if square == 0 else max(0.0, min(1.0, -(x1 * along_x + y1 * along_y) / square))
    return math.hypot(x1 + part * along_x, y1 + part * along_y)


def cells_in(area, plan, place):
    """Returns the names of the cells of an area, and the codes' names that no column has."""
    found, lacking = set(), set()
    for it in area.polygons:
        found |= plan.map.in_polygon(it, f"{place}polygon")
    for it in area.circles:
        found |= plan.map.in_circle(it, f"{place}circle")
    if plan.options.joined or not (area.polygons or area.circles):
        for name, value in set(area.codes):
            if name not in plan.codes:
                lacking.add(name)
            found |= plan.by_code.get((name, value), set())
    return found, lacking


@dataclass(frozen=True)
class Place:
    """Where an info is to be on the air: its cells, codes' names that no column has, and its areas without a cell."""

    cells: frozenset
    lacking: tuple
    unwarned: tuple


def place_of(info, plan):
    """Returns where an info is to be on the air."""
    cells, lacking, unwarned = set(), set(), []
    for it in info.areas:
        here, other = cells_in(it, plan, f"info {info.number}: ")
        cells |= here
        lacking |= other
        if not here:
            unwarned.append(it.name)
    return Place(plan.one_of(frozenset(cells)), tuple(sorted(lacking)), tuple(unwarned))


def places_of(message, plan):
    """Returns where each info of a message is to be on the air, or what is wrong with its areas."""
    plan.map.begin()
    try:
        return [place_of(it, plan) for it in message.infos]
    except Wrong as fault:
        return fault
