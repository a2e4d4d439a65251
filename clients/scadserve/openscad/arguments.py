"""The arguments of the nodes of OpenSCAD's evaluated form: those that are read, and those that are passed over, each with why.

A node with another argument is refused: what that argument would change of the solid is not known here.
"""

from __future__ import annotations

CURVE = ["$fn", "$fa", "$fs"]
_OF_DXF = ["file", "layer", "origin"]
_FILE = ["file", "layer", "origin", "scale", "center", "dpi", "invert"]

#: By the name of a node the arguments that its solid is made of; "" is the one without a name. OpenSCAD renders `text`,
#: `offset`, `projection`, `import` and `surface`, and is given all of theirs.
READ: dict[str, list[str]] = {
    **dict.fromkeys(["group", "union", "difference", "intersection", "hull", "minkowski", "color", "render"], []),
    "multmatrix": [""],
    "resize": ["newsize", "auto"],
    "cube": ["size", "center"],
    "sphere": [*CURVE, "r"],
    "cylinder": [*CURVE, "h", "r1", "r2", "center"],
    "polyhedron": ["points", "faces"],
    "square": ["size", "center"],
    "circle": [*CURVE, "r"],
    "polygon": ["points", "paths"],
    "linear_extrude": ["height", "center", "twist", "slices", "scale", *_OF_DXF, *CURVE],
    "rotate_extrude": ["angle", "scale", *_OF_DXF, *CURVE],
    "text": ["text", "size", "spacing", "font", "direction", "language", "script", "halign", "valign", *CURVE],
    "offset": ["r", "delta", "chamfer", *CURVE],
    "projection": ["cut"],
    "import": [*_FILE, *CURVE],
    "surface": ["file", "center", "invert"],
}
#: By the name of a node its sizes, or its matrix: where one of these is infinite or undefined, OpenSCAD makes nothing of it.
SIZES = {
    "cube": ["size"], "sphere": ["r"], "cylinder": ["h", "r1", "r2"], "square": ["size"], "circle": ["r"], "multmatrix": [""]
}  # fmt: skip
#: Nodes in which no other node stands.
LEAVES = {"cube", "sphere", "cylinder", "polyhedron", "square", "circle", "polygon", "text", "import", "surface"}
_WITH_CONVEXITY = "polyhedron polygon linear_extrude rotate_extrude projection import surface render minkowski resize"
_CONVEXITY = "how often a line goes into the shape at most: OpenSCAD's preview draws by it"
_TIMESTAMP = "when the file was last changed: OpenSCAD's cache depends on it"
#: By the name of a node and of an argument that no solid depends on why it doesn't.
PASSED_OVER: dict[tuple[str, str], str] = {
    **{(name, "convexity"): _CONVEXITY for name in _WITH_CONVEXITY.split()},
    **{(name, "timestamp"): _TIMESTAMP for name in ("import", "surface", "linear_extrude", "rotate_extrude")},
    ("color", ""): "a colour, which no mesh of ours has",
}


def is_taken(name: str, argument: str) -> bool:
    """Whether a node of this name may have this argument."""
    return argument in READ[name] or (name, argument) in PASSED_OVER
