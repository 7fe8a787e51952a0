"""Where a network is in its room, how its edges bend around nodes, where labels are written, and where messages are on
a link: for stored pictures and for pages.

The pages get this module as geometry.js, translated word by word (translation.py), so that while a node is dragged, in
a window of any size and without a server they draw by the rules that stand here. Hence it is written in few words of
Python: numbers, lists, tuples, loops and functions, none of them with a default. Nodes and edges are counted from 1,
and places are in a list, that of node 1 first. Only +, -, *, / and sqrt are used, which are the same on every machine.
"""
from collections.abc import Sequence
from math import floor, inf, sqrt

Point = tuple[float, float]
# The middle of what is written, half its width and half its height.
Box = tuple[float, float, float, float]
# The left and the upper side of a room, and the right and the lower one.
Room = tuple[float, float, float, float]
# Which of the texts that a label may have is written (-1 if none has room), on which of the 16 sides of its node, and
# its middle.
Spot = tuple[int, int, float, float]
# Points in the square cells of a grid, so that those near to a place are found without a look at all others: the
# points, the numbers of those of each cell, the upper left corner, the side of a cell, and the columns and rows.
Grid = tuple[Sequence[Point], list[list[int]], float, float, float, int, int]

# A letter is as wide as this, in parts of its size: DejaVu Sans takes as much, or a little less.
LETTER = 0.6
# Digits are wider: a label has so much more room.
MORE_FOR_DIGITS = 1.07
# What is at least between a circle and an edge that passes it, in radii and in pixels.
PASSING = 0.3
LEAST_PASSING = 3.0
# How far an edge is bent at least, in its lengths, besides what it passes; by how much farther each time, and how often
# that is tried; and how far at most, in its lengths and in what it passes.
BENT = 0.03
FARTHER = 1.3
TRIES = 12
MOST_BENT = 0.35
MOST_PASSED = 2.0
# A bend that leaves the room is as bad as one that passes a node by so many pixels less.
OUTSIDE = 1000.0
# An edge is looked at as so many straight pieces.
PIECES = 16
# The most pairs of an edge and a node, or of two nodes, that are looked at: of more no edge is bent, since that would
# take seconds.
MOST_LOOKED_AT = 1_000_000
# Of more pairs than these each edge is bent in one way only, to either side.
MANY_PAIRS = 20_000
# How far around a label there is looked for room, in distances of the label from its node.
SIGHT = 3.0
# The most columns and rows of a grid.
MOST_CELLS = 256
# A text of about this half width is as near to its node at the side as above it; a wider one is moved aside.
SHORT = 5.0
LITTLE = 1.5
# The order in which a label tries the sides of its node, which are counted clockwise from the top; and the sines of a
# quarter of them.
UPPER_FIRST = (2, 14, 1, 15, 3, 13, 0, 4, 12, 6, 10, 5, 11, 7, 9, 8)
SINES = (0.0, 0.382683432, 0.707106781, 0.923879533, 1.0)
# What is at least between a circle and what is written, what is usual, and how much nearer a label may be if there is
# no room for it.
BESIDE = 2.0
USUALLY = 5.0
NEARER = 2.5
# How much farther out the corner of a square is than its sides, in halves of a side; of a circle nothing is.
CORNER = 0.8
# How many times as near a label is to its own node as to any other one, if it can be.
CLEARLY = 1.5
# A label is nearer to its own circle than to any other one by so many pixels at least.
SURELY = 3.0
# On a page circles have at most this part of the room as their radius, of its width and of its height; and so many
# times their usual radius.
PART_OF_ROOM = 18.0
PART_OF_WIDTH = 16.0
PART_OF_HEIGHT = 10.0
MUCH_ROOM = 1.4
# How far below a node the pair of its turn is drawn, in radii.
PAIR_BELOW = 2.1
# What rings take around a circle, a label above it, and words below it; half the width of these. The least size of a
# label.
AROUND = 8.0
LABEL_HIGH = 14.0
WORDS_BELOW = 18.0
WORDS_HALF = 46.0
LEAST_LABEL = 10.0
# Circles are smaller by this, so many times at most, if an edge would run through one of them.
SHRINK = 0.88
SHRINKS = 6
# On a page circles are never smaller; and up to this radius they may be so near to each other, in radii.
LEAST_RADIUS = 5.0
SMALL_RADIUS = 8.0
NEAREST = 2.4
# Half the width of an arrow's head, in its lengths.
HEAD = 0.42
# How far the baseline of what is written is below its middle, in sizes of its letters.
BASELINE = 0.36
# How wide a channel's ring is: in radii, and at least.
RING_WIDTH = 0.25
LEAST_RING = 2.0
# How long the line is that crosses out a barred channel: to the left and up, and to the right and down, in radii.
CROSSED = 0.9
# The radius of a square's corners, in halves of its side.
ROUNDED = 0.25
# A message's pill: what is to the left and to the right of its words together, and above and below them.
PILL_WIDE, PILL_HIGH = 10.0, 5.0


def text_wide(letters: int, size: float) -> float:
    """How wide a text of so many letters is."""
    return LETTER * size * letters


def label_half(letters: int, size: float) -> float:
    """Half the width of a label of so many letters, which may all be digits."""
    return MORE_FOR_DIGITS * text_wide(letters, size) / 2 + 1


def size_in(sizes: Sequence[float], letters: int) -> float:
    """The size of a text of so many letters: the last one of the sizes is that of all longer texts."""
    return sizes[min(letters, len(sizes)) - 1]


def ring_wide(radius: float) -> float:
    """How wide the ring of a channel is."""
    return max(LEAST_RING, RING_WIDTH * radius)


def pill_wide(letters: int, size: float) -> float:
    return text_wide(letters, size) + PILL_WIDE


def pill_high(size: float) -> float:
    return size + PILL_HIGH


def apart_by(x: float, y: float) -> float:
    """The length of a step."""
    return sqrt(x * x + y * y)


def fitted(
    places: Sequence[Point], wide: float, high: float, aside: float, above: float, below: float
) -> tuple[float, float, float]:
    """By what places are multiplied, and what is added to them then, so that they are in the middle of a room and as
    large as what has to be free of it allows: at both sides, above and below."""
    xs = [x for x, _ in places]
    ys = [y for _, y in places]
    across = max(xs) - min(xs)
    up = max(ys) - min(ys)
    room_x = max(1.0, wide - 2 * aside)
    room_y = max(1.0, high - above - below)
    scale = 1.0
    if across > 0 or up > 0:
        scale = min(room_x / max(across, 1e-9), room_y / max(up, 1e-9))
    x = (wide - scale * across) / 2 - scale * min(xs)
    y = above + (high - above - below - scale * up) / 2 - scale * min(ys)
    return scale, x, y


def largest_in(wide: float, high: float, usual: float) -> float:
    """The largest radius that circles have on a stage of this size: in a large one more than usual, in a small one
    less."""
    by_room = max(usual, min(MUCH_ROOM * usual, min(wide, high) / PART_OF_ROOM))
    return min(by_room, wide / PART_OF_WIDTH, high / PART_OF_HEIGHT)


def label_size(radius: float, usual: float) -> float:
    """How large labels are beside circles."""
    return max(LEAST_LABEL, min(0.75 * radius, max(usual - 9, 0.45 * radius)))


def margins_of(
    wide: float, high: float, radius: float, half_label: float
) -> tuple[float, float, float]:
    """What is free at the sides of a stage, above and below the places of nodes: for their circles, for what is around
    these, for labels and for what is written below them."""
    aside = max(radius + AROUND, half_label, WORDS_HALF) + BESIDE
    above = radius + AROUND + LABEL_HIGH
    below = max(radius + AROUND + WORDS_BELOW, PAIR_BELOW * radius)
    return (min(aside, wide / 6), min(above, high / 4), min(below, high / 4))


def radius_in(least: float, apart: float, largest: float, below: float) -> float:
    """The radius of circles on a page of which two are at least so far from each other: so many of them between two
    for what is on their link, and `below` for what is written below one of them. Numbers have room if there is any,
    rather than that."""
    room = min(least / apart, (least - below) / 2)
    return max(LEAST_RADIUS, min(largest, max(room, min(SMALL_RADIUS, least / NEAREST))))


def words_wide(places: Sequence[Point], place: Point, radius: float, most: float) -> float:
    """How wide what is written below a node may be, so that it lies on no other circle."""
    x, y = place
    top, bottom = y + radius, y + radius + WORDS_BELOW
    half = most / 2
    for across, up in places:
        off = max(0.0, top - up, up - bottom)
        if off < radius and (across != x or up != y):
            half = min(half, abs(across - x) - sqrt(radius * radius - off * off))
    return max(0.0, 2 * half)


def least_apart(places: Sequence[Point]) -> float:
    """How far the two places are from each other that are nearest to each other."""
    least = inf
    for v in range(len(places)):
        x, y = places[v]
        for w in range(v + 1, len(places)):
            across, up = places[w]
            far = (across - x) * (across - x) + (up - y) * (up - y)
            if far < least:
                least = far
    return sqrt(least)


def side_of(side: int) -> Point:
    """One of the 16 sides of a node as a direction."""
    across = SINES[8 - side % 8] if side % 8 > 4 else SINES[side % 8]
    up = SINES[abs(4 - side % 8)]
    if side >= 8:
        across = -across
    return (across, up if 4 < side < 12 else -up)


def to_piece(place: Point, begin: Point, end: Point) -> float:
    """How far a place is from a straight piece."""
    x, y = place
    x1, y1 = begin
    x2, y2 = end
    dx, dy = x2 - x1, y2 - y1
    whole = dx * dx + dy * dy
    part = 0.0
    if whole > 0:
        part = max(0.0, min(1.0, ((x - x1) * dx + (y - y1) * dy) / whole))
    return apart_by(x - x1 - part * dx, y - y1 - part * dy)


def along(begin: Point, towards: Point, end: Point, part: float) -> Point:
    """A point of an edge that is drawn from a place to another one, towards a third."""
    x1, y1 = begin
    x2, y2 = towards
    x3, y3 = end
    rest = 1 - part
    x = rest * rest * x1 + 2 * part * rest * x2 + part * part * x3
    y = rest * rest * y1 + 2 * part * rest * y2 + part * part * y3
    return (x, y)


def pieces_of(begin: Point, towards: Point, end: Point, count: int) -> list[Point]:
    """The points between which an edge is nearly straight."""
    return [along(begin, towards, end, k / count) for k in range(count + 1)]


def least_to(points: Sequence[Point], others: Sequence[Point], enough: float) -> float:
    """How far the nearest of other places is from a line through points; a nearer one isn't looked for than is near
    enough."""
    least = inf
    bound = enough * enough
    for x, y in others:
        for k in range(len(points) - 1):
            x1, y1 = points[k]
            x2, y2 = points[k + 1]
            dx, dy = x2 - x1, y2 - y1
            part = ((x - x1) * dx + (y - y1) * dy) / max(1e-12, dx * dx + dy * dy)
            part = max(0.0, min(1.0, part))
            across, up = x - x1 - part * dx, y - y1 - part * dy
            far = across * across + up * up
            if far < least:
                least = far
        if least <= bound:
            return sqrt(least)
    return sqrt(least)


def bend_between(
    begin: Point, end: Point, others: Sequence[Point], clear: float, room: Room, tries: int
) -> Point | None:
    """How far the point is moved aside towards which an edge is drawn, so that it passes all other nodes at a distance:
    as little as that needs, and rather to the left, seen from its beginning. It stays in the room if it can. None if
    the edge can be straight."""
    x1, y1 = begin
    x2, y2 = end
    dx, dy = x2 - x1, y2 - y1
    length = apart_by(dx, dy)
    if length < 1e-6:
        return None
    middle = ((x1 + x2) / 2, (y1 + y2) / 2)
    most = most_bent(length, clear, tries)
    near = [other for other in others if to_piece(other, begin, end) < clear + most]
    if least_to([begin, end], near, 0.0) >= clear:
        return None
    best = (0.0, 0.0)
    widest = -inf
    by = clear + BENT * length
    for _ in range(tries):
        for side in (1, -1):
            x, y = 2 * by * side * dy / length, -2 * by * side * dx / length
            towards = (middle[0] + x, middle[1] + y)
            free = least_to(pieces_of(begin, towards, end, PIECES), near, widest)
            if not is_inside((middle[0] + x / 2, middle[1] + y / 2), room):
                free = min(free, clear) - OUTSIDE
            if free >= clear:
                return (x, y)
            if free > widest + 0.5:
                best = (x, y)
                widest = free
        by = by * FARTHER
        if by > most:
            break
    return best


def is_crowd(nodes: int, edges: int) -> bool:
    """Whether there are so many pairs of an edge and a node that each edge is bent as far as usual or not at all."""
    return nodes * max(nodes, edges) > MANY_PAIRS


def radius_passed(
    places: Sequence[Point], edges: Sequence[tuple[int, int]], radius: float, room: Room
) -> float:
    """The radius, or a smaller one if an edge would run through a circle else: not below a small one."""
    passed = radius
    if is_crowd(len(places), len(edges)):
        return passed
    for _ in range(SHRINKS):
        if passed <= SMALL_RADIUS or all_pass(places, edges, passed, room):
            return passed
        passed = max(SMALL_RADIUS, SHRINK * passed)
    return passed


def all_pass(
    places: Sequence[Point], edges: Sequence[tuple[int, int]], radius: float, room: Room
) -> bool:
    """Whether no edge runs through the circle of a third node."""
    bends = bends_of(places, edges, radius, room)
    for k in range(len(edges)):
        v, w = edges[k]
        begin, end = places[v - 1], places[w - 1]
        if bends[k] is not None:
            line = pieces_of(begin, towards_of(begin, end, bends[k]), end, PIECES)
            near = [u for u in range(len(places)) if u != v - 1 and u != w - 1]
            if least_to(line, [places[u] for u in near], radius) < radius:
                return False
    return True


def most_bent(length: float, clear: float, tries: int) -> float:
    """How far the middle of an edge of this length is moved aside at most."""
    if tries == 1:
        return clear + BENT * length
    return MOST_BENT * length + MOST_PASSED * clear


def is_inside(place: Point, room: Room) -> bool:
    x, y = place
    left, top, right, bottom = room
    return left <= x <= right and top <= y <= bottom


def bends_of(
    places: Sequence[Point], edges: Sequence[tuple[int, int]], radius: float, room: Room
) -> list[Point | None]:
    """How far the point is moved aside towards which each edge is drawn, or None if it is straight."""
    if len(places) * max(len(places), len(edges)) > MOST_LOOKED_AT:
        return [None for _ in edges]
    clear = radius + max(LEAST_PASSING, PASSING * radius)
    tries = 1 if is_crowd(len(places), len(edges)) else TRIES
    found: list[Point | None] = []
    for v, w in edges:
        begin, end = places[v - 1], places[w - 1]
        far = clear + most_bent(apart_by(begin[0] - end[0], begin[1] - end[1]), clear, tries)
        left, right = min(begin[0], end[0]) - far, max(begin[0], end[0]) + far
        top, bottom = min(begin[1], end[1]) - far, max(begin[1], end[1]) + far
        others: list[Point] = []
        is_near = False
        for u in range(len(places)):
            x, y = places[u]
            if u != v - 1 and u != w - 1 and left < x < right and top < y < bottom:
                others.append(places[u])
                if not is_near:
                    is_near = to_piece(places[u], begin, end) < clear
        found.append(bend_between(begin, end, others, clear, room, tries) if is_near else None)
    return found


def grid_of(points: Sequence[Point], wanted: float) -> Grid:
    """Points in cells of about this side."""
    left, top, right, bottom = 0.0, 0.0, 0.0, 0.0
    if len(points) > 0:
        xs = [x for x, _ in points]
        ys = [y for _, y in points]
        left, top, right, bottom = lowest(xs), lowest(ys), highest(xs), highest(ys)
    cell = max(1.0, wanted, (right - left) / MOST_CELLS, (bottom - top) / MOST_CELLS)
    columns, rows = floor((right - left) / cell) + 1, floor((bottom - top) / cell) + 1
    cells: list[list[int]] = [[] for _ in range(columns * rows)]
    for k in range(len(points)):
        x, y = points[k]
        cells[floor((y - top) / cell) * columns + floor((x - left) / cell)].append(k)
    return (points, cells, left, top, cell, columns, rows)


def lowest(numbers: Sequence[float]) -> float:
    least = inf
    for number in numbers:
        if number < least:
            least = number
    return least


def highest(numbers: Sequence[float]) -> float:
    most = -inf
    for number in numbers:
        if number > most:
            most = number
    return most


def near_to(grid: Grid, place: Point, reach: float) -> list[Point]:
    """The points in a square around a place."""
    points, cells, left, top, cell, columns, rows = grid
    x, y = place
    found: list[Point] = []
    for row in range(
        max(0, floor((y - reach - top) / cell)), min(rows, floor((y + reach - top) / cell) + 1)
    ):
        for column in range(
            max(0, floor((x - reach - left) / cell)),
            min(columns, floor((x + reach - left) / cell) + 1),
        ):
            for k in cells[row * columns + column]:
                across, up = points[k]
                if abs(across - x) < reach and abs(up - y) < reach:
                    found.append(points[k])
    return found


def to_box(place: Point, box: Box) -> float:
    """How far a place is from what is written."""
    x, y = place
    across, up, half_wide, half_high = box
    return apart_by(max(0.0, abs(x - across) - half_wide), max(0.0, abs(y - up) - half_high))


def covered_by(box: Box, circles: Sequence[Point], radius: float, boxes: Sequence[Box]) -> float:
    """How much of circles and of other boxes a box covers, in pixels of depth."""
    x, y, half_wide, half_high = box
    depth = 0.0
    for circle in circles:
        depth += max(0.0, radius - to_box(circle, box))
    for across, up, wide, high in boxes:
        over = min(half_wide + wide - abs(x - across), half_high + high - abs(y - up))
        depth += max(0.0, over)
    return depth


def least_gap(place: Point, points: Sequence[Point], most: float) -> float:
    """How far the nearest of points is, at most so far."""
    x, y = place
    least = most * most
    for across, up in points:
        far = (across - x) * (across - x) + (up - y) * (up - y)
        if far < least:
            least = far
    return sqrt(least)


def box_beside(
    place: Point, side: int, distance: float, corner: float, half_wide: float, half_high: float
) -> Box:
    """What is written on a side of a node: a wide text is moved aside there, and farther out by so much of a corner."""
    x, y = place
    dx, dy = side_of(side)
    distance += corner * abs(dx * dy)
    aside = half_wide - SHORT if half_wide > SHORT + LITTLE else 0.0
    across = x + dx * distance + aside * max(-1.0, min(1.0, 2 * dx))
    return (across, y + dy * distance, half_wide, half_high)


def is_within(box: Box, wide: float, high: float) -> bool:
    """Whether all of a box is in a room."""
    x, y, half_wide, half_high = box
    return half_wide <= x <= wide - half_wide and half_high <= y <= high - half_high


def labels_at(
    places: Sequence[Point],
    edges: Sequence[tuple[int, int]],
    bends: Sequence[Point | None],
    radius: float,
    corner: float,
    texts: Sequence[Sequence[Point]],
    taken: Sequence[Box],
    wide: float,
    high: float,
) -> list[Spot]:
    """Where each node's label is written. `texts` has of each node half the width and half the height of what may be
    written, the best first; `corner` is how much farther out corners of nodes are, and `taken` is where something else
    is. Of 16 sides it is the one with most room, upper ones
    first. A label covers no circle, no other label and nothing that is taken, and is nearer to its own circle than to
    any other one. One of a node with many others around it is placed before the others."""
    distance = 0.0
    reach = 0.0
    for own in texts:
        for half_wide, half_high in own:
            distance = max(distance, radius + USUALLY + half_high)
            reach = max(reach, half_wide)
    near = SIGHT * distance
    nodes = grid_of(places, near)
    lines = grid_of(points_of(places, edges, bends), near)
    written = [box for box in taken]
    found: list[Spot] = [(-1, 0, x, y) for x, y in places]
    for v in crowded_first(places, nodes, near):
        circles = near_to(nodes, places[v], near + reach)
        points = near_to(lines, places[v], near + reach)
        boxes = boxes_near(places[v], near + 2 * reach, written)
        found[v] = spot_of(
            places[v], radius, corner, texts[v], circles, points, boxes, near, wide, high
        )
        text, _, x, y = found[v]
        if text >= 0:
            half_wide, half_high = texts[v][text]
            written.append((x, y, half_wide, half_high))
    return found


def points_of(
    places: Sequence[Point], edges: Sequence[tuple[int, int]], bends: Sequence[Point | None]
) -> list[Point]:
    """Points of all edges as they are drawn."""
    found: list[Point] = []
    for k in range(len(edges)):
        v, w = edges[k]
        towards = towards_of(places[v - 1], places[w - 1], bends[k])
        for point in pieces_of(places[v - 1], towards, places[w - 1], PIECES):
            found.append(point)
    return found


def towards_of(begin: Point, end: Point, bend: Point | None) -> Point:
    """The point towards which an edge is drawn: on it if it is straight."""
    x, y = (begin[0] + end[0]) / 2, (begin[1] + end[1]) / 2
    return (x, y) if bend is None else (x + bend[0], y + bend[1])


def crowded_first(places: Sequence[Point], nodes: Grid, near: float) -> list[int]:
    """The nodes, those with most others around them first; counted from 0."""
    count = len(places)
    crowds = [len(near_to(nodes, place, near)) for place in places]
    keys = [(count - crowds[v]) * count + v for v in range(count)]
    return [key % count for key in sorted(keys)]


def boxes_near(place: Point, reach: float, boxes: Sequence[Box]) -> list[Box]:
    """The boxes of which a part is in a square around a place."""
    x, y = place
    found: list[Box] = []
    for box in boxes:
        if abs(box[0] - x) < reach + box[2] and abs(box[1] - y) < reach + box[3]:
            found.append(box)
    return found


def spot_of(
    place: Point,
    radius: float,
    corner: float,
    texts: Sequence[Point],
    circles: Sequence[Point],
    points: Sequence[Point],
    boxes: Sequence[Box],
    near: float,
    wide: float,
    high: float,
) -> Spot:
    """Where one label is written: the first of its texts that has room, as far from its circle as usual or nearer. If
    none has, the spot where the first one covers least."""
    others = [circle for circle in circles if circle[0] != place[0] or circle[1] != place[1]]
    for text in range(len(texts)):
        half_wide, half_high = texts[text]
        for nearer in (0.0, NEARER):
            distance = radius + USUALLY - nearer + half_high
            best = -1
            most = -inf
            for side in UPPER_FIRST:
                box = box_beside(place, side, distance, corner, half_wide, half_high)
                covered = covered_by(box, circles, radius + BESIDE, boxes)
                if covered <= 0 and is_own(box, place, others) and is_within(box, wide, high):
                    room = room_at(box, place, others, points, boxes, distance, near)
                    if room > most + 1:
                        best = side
                        most = room
            if best >= 0:
                box = box_beside(place, best, distance, corner, half_wide, half_high)
                return (text, best, box[0], box[1])
    return least_covered(place, radius, corner, texts, circles, boxes)


def is_own(box: Box, place: Point, others: Sequence[Point]) -> bool:
    """Whether a label is nearer to its own node than to any other one."""
    own = to_box(place, box) + SURELY
    for circle in others:
        if to_box(circle, box) <= own:
            return False
    return True


def least_covered(
    place: Point,
    radius: float,
    corner: float,
    texts: Sequence[Point],
    circles: Sequence[Point],
    boxes: Sequence[Box],
) -> Spot:
    """Where a label that has no room covers least."""
    best = (-1, 0, place[0], place[1])
    least = inf
    if len(texts) > 0:
        half_wide, half_high = texts[0]
        for side in UPPER_FIRST:
            distance = radius + USUALLY + half_high
            box = box_beside(place, side, distance, corner, half_wide, half_high)
            covered = covered_by(box, circles, radius + BESIDE, boxes)
            if covered < least:
                least = covered
                best = (-1, side, box[0], box[1])
    return best


def room_at(
    box: Box,
    place: Point,
    others: Sequence[Point],
    points: Sequence[Point],
    boxes: Sequence[Box],
    distance: float,
    near: float,
) -> float:
    """How much room there is around a label: to edges, to other circles and to other labels, and less where it isn't
    clearly nearer to its own node than to any other one."""
    middle = (box[0], box[1])
    to_others = least_gap(middle, others, 2 * near)
    to_texts = min(to_others, least_gap(middle, [(b[0], b[1]) for b in boxes], 2 * near))
    room = min(least_gap(middle, points, near), to_texts - 0.45 * distance, near)
    own = apart_by(box[0] - place[0], box[1] - place[1])
    return room - 3 * max(0.0, CLEARLY * own - to_others)


def arrow_head(tip: Point, direction: Point, size: float) -> list[Point]:
    """The three corners of an arrow's head, the tip first, of which the back is a size away from the tip."""
    x, y = tip
    length = apart_by(direction[0], direction[1])
    dx, dy = (0.0, 0.0) if length <= 0 else (direction[0] / length, direction[1] / length)
    back_x = x - dx * size
    back_y = y - dy * size
    half = size * HEAD
    return [tip, (back_x - dy * half, back_y + dx * half), (back_x + dy * half, back_y - dx * half)]


def on_link(
    begin: Point,
    towards: Point,
    end: Point,
    part: float,
    radius: float,
    wide: float,
    high: float,
    aside: float,
) -> Point:
    """Where something of this size is on its way over a link, beside it and off its nodes: to the right."""
    dx, dy = end[0] - begin[0], end[1] - begin[1]
    whole = max(1e-9, apart_by(dx, dy))
    across, up = abs(dx) / whole, abs(dy) / whole
    off = min(0.5, (radius + 3 + (across * wide + up * high) / 2) / whole)
    x, y = along(begin, towards, end, off + part * (1 - 2 * off))
    by = 3 + aside + (up * wide + across * high) / 2
    return (x - dy / whole * by, y + dx / whole * by)
