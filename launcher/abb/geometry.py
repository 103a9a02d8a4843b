"""Orientations and frames: quaternions, matrices and the angles about x, y, z (EulerZYX)."""
import math
from typing import List, Optional, Sequence, Tuple

Matrix = List[List[float]]
Vector = List[float]
# A frame: what its axes are in the world, and where its origin is.
Frame = Tuple[Matrix, Vector]

IDENTITY: Matrix = [[1.0, 0.0, 0.0], [0.0, 1.0, 0.0], [0.0, 0.0, 1.0]]
# Angles about x and z lie in (LOWEST, LOWEST + 360], so that noise about 180 degrees does not swing an axis round.
LOWEST = -170.0
# Below this the sine and the cosine of an angle about y of 90 degrees no longer tell x and z apart.
SINGULAR = 1e-6


def matrix_of(quaternion: Sequence[float]) -> Optional[Matrix]:
    """The matrix of a quaternion of any length but 0."""
    length = math.sqrt(sum(it * it for it in quaternion))
    if length < 1e-9:
        return None
    w, x, y, z = (it / length for it in quaternion)
    return [
        [1 - 2 * (y * y + z * z), 2 * (x * y - w * z), 2 * (x * z + w * y)],
        [2 * (x * y + w * z), 1 - 2 * (x * x + z * z), 2 * (y * z - w * x)],
        [2 * (x * z - w * y), 2 * (y * z + w * x), 1 - 2 * (x * x + y * y)],
    ]


def product(left: Matrix, right: Matrix) -> Matrix:
    return [[sum(left[i][k] * right[k][j] for k in range(3)) for j in range(3)] for i in range(3)]


def applied(matrix: Matrix, vector: Sequence[float]) -> Vector:
    return [sum(matrix[i][k] * vector[k] for k in range(3)) for i in range(3)]


def transposed(matrix: Matrix) -> Matrix:
    return [[matrix[j][i] for j in range(3)] for i in range(3)]


def inverse(frame: Frame) -> Frame:
    back = transposed(frame[0])
    return back, [-it for it in applied(back, frame[1])]


def composed(outer: Frame, inner: Frame) -> Frame:
    return product(outer[0], inner[0]), [a + b for a, b in zip(applied(outer[0], inner[1]), outer[1])]


def turned(x: float, y: float, z: float) -> Matrix:
    """The matrix of a turn about x, then about the new y, then about the new z, as RelTool has it, in degrees."""
    return product(product(about(0, x), about(1, y)), about(2, z))


def of_angles(angles: Sequence[float]) -> Matrix:
    """The matrix of the angles about x, y, z: OrientZYX(z, y, x)."""
    return product(product(about(2, angles[2]), about(1, angles[1])), about(0, angles[0]))


def about(axis: int, degrees: float) -> Matrix:
    c, s = math.cos(math.radians(degrees)), math.sin(math.radians(degrees))
    i, j = (axis + 1) % 3, (axis + 2) % 3
    found = [list(row) for row in IDENTITY]
    found[i][i], found[i][j], found[j][i], found[j][j] = c, -s, s, c
    return found


def angles_of(matrix: Matrix) -> Vector:
    """The angles about x, y, z of a matrix, in degrees; at 90 degrees about y that about x is 0."""
    level = math.hypot(matrix[0][0], matrix[1][0])
    y = math.degrees(math.atan2(-matrix[2][0], level))
    if level < SINGULAR:
        return [0.0, y, in_range(math.degrees(math.atan2(-matrix[0][1], matrix[1][1])))]
    x = math.degrees(math.atan2(matrix[2][1], matrix[2][2]))
    z = math.degrees(math.atan2(matrix[1][0], matrix[0][0]))
    return [in_range(x), y, in_range(z)]


def in_range(degrees: float) -> float:
    """An angle in (-170, 190]."""
    while degrees > LOWEST + 360:
        degrees -= 360
    while degrees <= LOWEST:
        degrees += 360
    return degrees


def quaternion_of(matrix: Matrix) -> Vector:
    """The quaternion of a matrix, with a first part that is not negative."""
    trace = matrix[0][0] + matrix[1][1] + matrix[2][2]
    parts = [trace, matrix[0][0], matrix[1][1], matrix[2][2]]
    sizes = [math.sqrt(max(0.0, 1 + trace)) / 2] + [math.sqrt(max(0.0, 1 + 2 * it - trace)) / 2 for it in parts[1:]]
    greatest = sizes.index(max(sizes))
    m = matrix
    rows = [
        [sizes[0] * 4 * sizes[0], m[2][1] - m[1][2], m[0][2] - m[2][0], m[1][0] - m[0][1]],
        [m[2][1] - m[1][2], sizes[1] * 4 * sizes[1], m[0][1] + m[1][0], m[0][2] + m[2][0]],
        [m[0][2] - m[2][0], m[0][1] + m[1][0], sizes[2] * 4 * sizes[2], m[1][2] + m[2][1]],
        [m[1][0] - m[0][1], m[0][2] + m[2][0], m[1][2] + m[2][1], sizes[3] * 4 * sizes[3]],
    ]
    found = [it / (4 * sizes[greatest]) for it in rows[greatest]]
    return [-it for it in found] if found[0] < 0 else found


def is_identity(frame: Frame) -> bool:
    return is_near(frame[0], IDENTITY) and all(abs(it) < 1e-9 for it in frame[1])


def is_near(left: Matrix, right: Matrix) -> bool:
    return all(abs(a - b) < 1e-6 for one, other in zip(left, right) for a, b in zip(one, other))


def shown(value: float) -> str:
    """A number as RAPID has it, rounded to thousandths."""
    text = f"{value:.3f}".rstrip("0").rstrip(".")
    return "0" if text in ("-0", "") else text
