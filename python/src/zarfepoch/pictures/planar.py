"""Places of a graph's vertices in the plane, so that straight edges don't cross; none where the graph isn't planar.

An embedding is built face by face (Demoucron, Malgrange and Pertuiset): from a cycle on, a path of what is left is laid
into a face that has both its ends. Then each vertex inside is put into the middle of its neighbours (Tutte), with one
more vertex in each face, and those that are crowded are moved a little.
"""
from __future__ import annotations

import itertools
import math
from collections.abc import Hashable, Iterable, Iterator, Sequence

Vertex = Hashable
Edges = list[tuple[Vertex, Vertex]]
Near = dict[Vertex, list[Vertex]]
Point = tuple[float, float]
Places = dict[Vertex, Point]

ROUNDS, STEPS = 300, 40


def neighbours_of(vertices: list[Vertex], edges: Edges) -> Near:
    near: Near = {vertex: [] for vertex in vertices}
    for one, other in edges:
        near[one].append(other)
        near[other].append(one)
    return near


def parts_of(vertices: list[Vertex], near: Near, without: Iterable[Vertex] = ()) -> list[list[Vertex]]:
    """The connected parts of the vertices, of which some are left out."""
    left, parts = [vertex for vertex in vertices if vertex not in without], []
    seen = set(without)
    for begin in left:
        if begin in seen:
            continue
        part = [begin]
        seen.add(begin)
        for vertex in part:
            further = [other for other in dict.fromkeys(near[vertex]) if other not in seen]
            seen.update(further)
            part += further
        parts.append(part)
    return parts


def joined(vertices: list[Vertex], edges: Edges) -> Edges:
    """The edges with more, so that no vertex parts the graph; a planar graph stays planar."""
    edges = list(edges)
    while True:
        near = neighbours_of(vertices, edges)
        parts = parts_of(vertices, near)
        if len(parts) > 1:
            edges.append((parts[0][0], parts[1][0]))
            continue
        cuts = ((vertex, parts_of(vertices, near, (vertex,))) for vertex in vertices)
        cut = next(((vertex, parts) for vertex, parts in cuts if len(parts) > 1), None)
        if cut is None:
            return edges
        vertex, parts = cut
        one, two = (next(other for other in near[vertex] if other in part) for part in parts[:2])
        edges.append((one, two))


def cycle_of(vertices: list[Vertex], near: Near) -> list[Vertex]:
    """Some cycle of a graph that no vertex parts."""
    one, other = vertices[0], near[vertices[0]][0]
    return [one] + path_between(other, one, {vertex: [to for to in near[vertex] if {vertex, to} != {one, other}] for vertex in vertices})[:-1]


def path_between(begin: Vertex, end: Vertex, near: Near) -> list[Vertex]:
    """A shortest path."""
    came: dict[Vertex, Vertex] = {begin: begin}
    queue = [begin]
    for vertex in queue:
        for other in near[vertex]:
            if other not in came:
                came[other] = vertex
                queue.append(other)
    path = [end]
    while path[-1] != begin:
        path.append(came[path[-1]])
    return path[::-1]


def fragments(vertices: list[Vertex], near: Near, laid: set[Vertex], laid_edges: set[frozenset[Vertex]]) -> Iterator[tuple[list[Vertex], list[Vertex]]]:
    """What is still to be laid: of each piece its vertices that are laid, and those inside that aren't."""
    for vertex, other in itertools.combinations([vertex for vertex in vertices if vertex in laid], 2):
        if other in near[vertex] and frozenset((vertex, other)) not in laid_edges:
            yield [vertex, other], []
    for part in parts_of(vertices, near, laid):
        yield [vertex for vertex in vertices if vertex in laid and any(other in part for other in near[vertex])], part


def faces_of(vertices: list[Vertex], edges: Edges) -> list[list[Vertex]] | None:
    """The faces of an embedding of a graph that no vertex parts; None where it isn't planar."""
    near = neighbours_of(vertices, edges)
    cycle = cycle_of(vertices, near)
    faces, laid = [cycle, cycle[::-1]], set(cycle)
    laid_edges = {frozenset(pair) for pair in zip(cycle, cycle[1:] + cycle[:1])}
    while True:
        found = [(ends, inside, [face for face in faces if set(ends) <= set(face)])
                 for ends, inside in fragments(vertices, near, laid, laid_edges)]
        if not found:
            return faces
        ends, inside, fitting = min(found, key=lambda one: len(one[2]))
        if not fitting:
            return None
        some = set(inside)
        steps = {vertex: [other for other in near[vertex] if other in some or other == ends[1]] for vertex in [ends[0], *inside]}
        steps[ends[0]] = [other for other in near[ends[0]] if other in some] if inside else [ends[1]]
        path = path_between(ends[0], ends[1], {**steps, ends[1]: []})
        faces.remove(fitting[0])
        faces += divided(fitting[0], path)
        laid |= set(path)
        laid_edges |= {frozenset(pair) for pair in zip(path, path[1:])}


def divided(face: list[Vertex], path: list[Vertex]) -> list[list[Vertex]]:
    """The two faces that a path between two vertices of a face makes of it."""
    begin, end = face.index(path[0]), face.index(path[-1])
    around = face[begin:] + face[:begin]
    end = around.index(path[-1])
    return [around[:end + 1] + path[-2:0:-1], path + around[end + 1:]]


def laid_out(vertices: list[Vertex], edges: Edges, faces: list[list[Vertex]], outer: list[Vertex]) -> Places:
    """A place for each vertex, those of the outer face on a circle, and each other one in the middle of its
    neighbours."""
    inner = [face for face in faces if face is not outer]
    # (dictionaries in place of sets, since these have no order, and sums depend on it)
    near: dict[Vertex, dict[Vertex, None]] = {vertex: {} for vertex in vertices}
    for face in inner + [outer]:
        for one, other in zip(face, face[1:] + face[:1]):
            near[one][other] = near[other][one] = None
    for k, face in enumerate(inner):
        if len(face) > 3:
            near[k,] = dict.fromkeys(face)
            for vertex in face:
                near[vertex][k,] = None
    at = {vertex: (0.0, 0.0) for vertex in near}
    at.update((vertex, (math.sin(2 * math.pi * k / len(outer)), -math.cos(2 * math.pi * k / len(outer)))) for k, vertex in enumerate(outer))
    free = [vertex for vertex in near if vertex not in outer]
    for _ in range(ROUNDS if free else 0):
        for vertex in free:
            x, y = (sum(at[other][k] for other in near[vertex]) / len(near[vertex]) for k in (0, 1))
            at[vertex] = x, y
    return {vertex: at[vertex] for vertex in vertices}


def distance(point: Point, begin: Point, end: Point) -> float:
    """How far a point is from a straight line between two others."""
    (x, y), (a, b), (c, d) = point, begin, end
    length = (c - a) ** 2 + (d - b) ** 2
    along = max(0.0, min(1.0, ((x - a) * (c - a) + (y - b) * (d - b)) / length)) if length else 0.0
    return math.hypot(x - a - along * (c - a), y - b - along * (d - b))


def clearance(at: Places, edges: Edges) -> float:
    """The least distance between two vertices, halved, or between a vertex and an edge that isn't its own."""
    between = [math.dist(at[one], at[other]) / 2 for one, other in itertools.combinations(at, 2)]
    beside = [distance(at[vertex], at[one], at[other]) for one, other in edges for vertex in at if vertex not in (one, other)]
    return min(between + beside, default=1.0)


def room_of(vertex: Vertex, at: Places, edges: Edges) -> float:
    """How far a vertex and its edges are from all else."""
    own = [edge for edge in edges if vertex in edge]
    to_edges = [distance(at[vertex], at[one], at[other]) for one, other in edges if vertex not in (one, other)]
    from_edges = [distance(at[other], at[one], at[two]) for one, two in own for other in at if other not in (one, two)]
    return min([math.dist(at[vertex], at[other]) / 2 for other in at if other != vertex] + to_edges + from_edges)


def spread(at: Places, edges: Edges) -> Places:
    """Moves vertices as long as they get more room. No step is longer than a vertex's room, so that no edge comes to
    cross another."""
    for turn in range(STEPS):
        for vertex in at:
            here, room = at[vertex], room_of(vertex, at, edges)
            for k in range(6):
                angle = 2 * math.pi * (k + 0.37 * turn) / 6
                x, y = (max(-1.0, min(1.0, old + 0.9 * room * new)) for old, new in zip(here, (math.cos(angle), math.sin(angle))))
                at[vertex] = x, y
                if room_of(vertex, at, edges) > room:
                    break
                at[vertex] = here
    return at


def in_order(vertices: list[Vertex], edge: tuple[Vertex, Vertex]) -> tuple[Vertex, Vertex]:
    """An edge with the vertex first that comes first."""
    one, other = edge
    return edge if vertices.index(one) < vertices.index(other) else (other, one)


def places(names: Sequence[Vertex], pairs: Iterable[tuple[Vertex, Vertex]]) -> tuple[Places, float] | None:
    """A place for each vertex within a circle of radius one, and the clearance; None where straight edges would
    cross."""
    vertices = list(names)
    different = {in_order(vertices, (one, other)) for one, other in pairs if one != other}
    edges = sorted(different, key=lambda edge: [vertices.index(vertex) for vertex in edge])
    if len(vertices) < 3:
        at = {vertex: (2.0 * k - (len(vertices) - 1), 0.0) for k, vertex in enumerate(vertices)}
        return at, clearance(at, edges)
    more = joined(vertices, edges)
    faces = faces_of(vertices, more)
    if faces is None:
        return None
    outers = sorted(faces, key=len, reverse=True)[:8]
    layouts = [laid_out(vertices, more, faces, outer) for outer in outers]
    best = max(layouts, key=lambda at: clearance(at, edges))
    best = spread(best, edges)
    return best, clearance(best, edges)
