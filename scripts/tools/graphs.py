"""Jobs, and the graphs that they name, as docs/formats.md has them."""

from __future__ import annotations

import json
from array import array
from dataclasses import dataclass
from typing import Iterator

from tools.words import Refused

MOST_OF_A_JOB = 1 << 20
MOST_OF_A_TEXT = 1 << 30
MOST_VERTICES = 1 << 20
MOST_EDGES = 1 << 22
GREATEST_IDENTIFIER = (1 << 63) - 2
GREATEST_WEIGHT = (1 << 32) - 1
MOST_MACHINES = 16
MOST_ATOMS = 1024
MOST_OF_A_PATH = 255
MOST_OF_A_PREFIX = 200
ALGORITHMS = ("levels", "components", "paths", "colours", "cores", "pairs")
WEIGHT_OF_NONE = 1

# A pair of vertex numbers is one integer, which costs a third of the memory of a tuple.
BITS_OF_A_VERTEX = 20
VERTEX_MASK = MOST_VERTICES - 1


@dataclass(frozen=True)
class Job:
    """The keys of a job that say which graph it is about, and how that is cut."""

    vertices: str
    edges: str
    directed: bool
    algorithm: str
    atoms: int
    atoms_at: str


@dataclass(frozen=True)
class Graph:
    """A graph whose vertices are numbered by ascending identifier, and whose edges are numbered by ascending ends."""

    directed: bool
    identifiers: list[int]
    tails: array[int]
    heads: array[int]
    weights: array[int]

    def ends(self) -> Iterator[tuple[int, int]]:
        """Yields the two vertices of each edge."""
        return zip(self.tails, self.heads)


# A job.


def read_job(path: str) -> Job:
    """Reads a job that has the key `atoms_at`. It is refused as glab refuses it, as far as these keys go."""
    with open(path, "rb") as file:
        text = file.read(MOST_OF_A_JOB + 1)
    if len(text) > MOST_OF_A_JOB:
        raise Refused("job: too long")
    try:
        keys = json.loads(text.decode(), parse_constant=refuse_constant)
        json.dumps(keys, ensure_ascii=False).encode()
    except (ValueError, RecursionError):
        raise Refused("job: not json") from None
    if not isinstance(keys, dict):
        raise Refused("job: not json")
    return job_of(keys)


def refuse_constant(word: str) -> None:
    """Refuses NaN and Infinity, which Python would read."""
    raise ValueError(word)


def job_of(keys: dict[str, object]) -> Job:
    """Returns the job that has these keys."""
    vertices = path_at(keys, "vertices", MOST_OF_A_PATH)
    edges = path_at(keys, "edges", MOST_OF_A_PATH)
    directed = value_at(keys, "directed", bool)
    algorithm = value_at(keys, "algorithm", str)
    if algorithm not in ALGORITHMS:
        raise Refused(f"job: out of range algorithm {len(algorithm.encode())}")
    machines = number_at(keys, "machines", MOST_MACHINES, 1)
    atoms = number_at(keys, "atoms", MOST_ATOMS, 4 * machines)
    return Job(vertices, edges, directed, algorithm, atoms, path_at(keys, "atoms_at", MOST_OF_A_PREFIX))


def value_at(keys: dict[str, object], key: str, kind: type) -> object:
    """Returns the value of a key that has to be there."""
    if key not in keys:
        raise Refused(f"job: missing key {key}")
    if type(keys[key]) is not kind:
        raise Refused(f"job: wrong kind {key}")
    return keys[key]


def path_at(keys: dict[str, object], key: str, most: int) -> str:
    """Returns the path that a key names, of 1 to `most` bytes."""
    path = value_at(keys, key, str)
    length = len(path.encode())
    if not 1 <= length <= most:
        raise Refused(f"job: out of range {key} {length}")
    if "\0" in path:
        raise Refused(f"job: {key} has a zero byte")
    return path


def number_at(keys: dict[str, object], key: str, most: int, absent: int) -> int:
    """Returns the number of a key from 1 to `most`, or `absent` if the job lacks the key."""
    if key not in keys:
        return absent
    number = value_at(keys, key, int)
    if not 1 <= number <= most:
        raise Refused(f"job: out of range {key} {number}")
    return number


# The texts of a graph.


class Fault(Exception):
    """The kind of the first fault of a line."""


def read_graph(job: Job) -> Graph:
    """Reads the graph of a job from its two texts. The first faulty line is refused as glab refuses it."""
    identifiers = read_vertices(job.vertices)
    weight_at = read_edges(job.edges, identifiers, job)
    pairs = sorted(weight_at)
    return Graph(
        directed=job.directed,
        identifiers=identifiers,
        tails=array("I", (pair >> BITS_OF_A_VERTEX for pair in pairs)),
        heads=array("I", (pair & VERTEX_MASK for pair in pairs)),
        weights=array("I", map(weight_at.__getitem__, pairs)),
    )


def read_vertices(path: str) -> list[int]:
    """Returns the identifiers of a vertex text, ascending."""
    found: set[int] = set()
    for line, fields in lines_of(path, "vertices"):
        try:
            found.add(new_vertex(fields, found))
        except Fault as kind:
            raise Refused(f"graph: vertices:{line}: {kind}") from None
    return sorted(found)


def read_edges(path: str, identifiers: list[int], job: Job) -> dict[int, int]:
    """Returns the weight of each edge by its pair of vertices."""
    names = {b"%d" % identifier: number for number, identifier in enumerate(identifiers)}
    found: dict[int, int] = {}
    is_weighted = job.algorithm == "paths"
    for line, fields in lines_of(path, "edges"):
        try:
            pair = pair_of(fields, names, job.directed)
            weight = weight_of(fields) if is_weighted else WEIGHT_OF_NONE
            if pair in found:
                raise Fault("double")
            if len(found) == MOST_EDGES:
                raise Fault("too many")
        except Fault as kind:
            raise Refused(f"graph: edges:{line}: {kind}") from None
        found[pair] = weight
    return found


def lines_of(path: str, name: str) -> Iterator[tuple[int, list[bytes]]]:
    """Yields the number and the fields of each line that has fields and is no remark."""
    left = MOST_OF_A_TEXT
    with open(path, "rb") as file:
        number = 0
        while line := file.readline(left + 1):
            number += 1
            left -= len(line)
            if left < 0:
                raise Refused(f"graph: {name}:{number}: too long")
            fields = fields_of(line)
            if fields and not fields[0].startswith(b"#"):
                yield number, fields


def fields_of(line: bytes) -> list[bytes]:
    """Returns the longest runs of other bytes than blanks and tabs, without the line's end."""
    line = line.removesuffix(b"\n").removesuffix(b"\r")
    fields = line.replace(b"\t", b" ").split(b" ")
    return [field for field in fields if field] if b"" in fields else fields


def value_of(digits: bytes, most: int) -> int:
    """Returns the number that digits say, which zeros may precede, or a number above `most` if it is above that."""
    digits = digits.lstrip(b"0")
    return int(digits or b"0") if len(digits) <= len(str(most)) else most + 1


def new_vertex(fields: list[bytes], found: set[int]) -> int:
    """Returns the identifier of a vertex line, which no line before it has."""
    if len(fields) != 1:
        raise Fault("fields")
    if not fields[0].isdigit():
        raise Fault("number")
    identifier = value_of(fields[0], GREATEST_IDENTIFIER)
    if identifier > GREATEST_IDENTIFIER:
        raise Fault("too large")
    if identifier in found:
        raise Fault("double")
    if len(found) == MOST_VERTICES:
        raise Fault("too many")
    return identifier


def pair_of(fields: list[bytes], names: dict[bytes, int], directed: bool) -> int:
    """Returns the two vertices of an edge line as one integer, the lower one first if edges have no direction."""
    if len(fields) < 2:
        raise Fault("fields")
    tail, head = names.get(fields[0]), names.get(fields[1])
    if tail is None or head is None:
        tail, head = ends_of(fields[:2], names)
    if tail == head:
        raise Fault("self-loop")
    if not directed and tail > head:
        tail, head = head, tail
    return tail << BITS_OF_A_VERTEX | head


def ends_of(fields: list[bytes], names: dict[bytes, int]) -> list[int]:
    """Returns the vertices of two fields of which one is not written as vertices are named."""
    if not all(field.isdigit() for field in fields):
        raise Fault("number")
    values = [value_of(field, GREATEST_IDENTIFIER) for field in fields]
    if max(values) > GREATEST_IDENTIFIER:
        raise Fault("too large")
    ends = [names.get(b"%d" % value) for value in values]
    if None in ends:
        raise Fault("unknown")
    return ends


def weight_of(fields: list[bytes]) -> int:
    """Returns the weight of an edge line: digits, which a point and zeros may follow."""
    if len(fields) < 3:
        raise Fault("no weight")
    digits, point, zeros = fields[2].partition(b".")
    if not digits.isdigit() or point and (not zeros or zeros.strip(b"0")):
        raise Fault("number")
    weight = value_of(digits, GREATEST_WEIGHT)
    if weight > GREATEST_WEIGHT:
        raise Fault("too large")
    return weight
