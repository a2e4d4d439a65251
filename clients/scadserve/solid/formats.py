"""Writes a mesh as STL, OFF, OBJ and 3MF."""

from __future__ import annotations

import io
import re
import struct
from typing import Callable, Sequence

from .measures import direction
from .meshes import Mesh


def _ascii(name: str) -> str:
    """A name in the letters that a text of ASCII has room for, without a blank."""
    return re.sub(r"[^A-Za-z0-9_-]", "_", name)


def _stl(solid: Mesh) -> bytes:
    name = _ascii(solid.name)
    lines = [f"solid {name}"]
    for triangle, plane in zip(solid.triangles, solid.planes):
        lines.append("facet normal {:.9g} {:.9g} {:.9g}".format(*direction(plane)))
        lines.append("outer loop")
        lines += ["vertex " + " ".join(solid.points[corner]) for corner in triangle]
        lines += ["endloop", "endfacet"]
    return _text(lines + [f"endsolid {name}"])


def _binary_stl(solid: Mesh) -> bytes:
    # The first 80 bytes must not begin as a text does.
    parts = [struct.pack("<80sI", f"binary STL of {_ascii(solid.name)}".encode("ascii"), len(solid.triangles))]
    for triangle, plane in zip(solid.triangles, solid.planes):
        numbers = [float(number) for corner in triangle for number in solid.points[corner]]
        parts.append(struct.pack("<12fH", *direction(plane), *numbers, 0))
    return b"".join(parts)


def _off(solid: Mesh) -> bytes:
    lines = ["OFF", f"{len(solid.points)} {len(solid.triangles)} 0"]
    lines += [" ".join(point) for point in solid.points]
    return _text(lines + [f"3 {a} {b} {c}" for a, b, c in solid.triangles])


def _obj(solid: Mesh) -> bytes:
    lines = [f"o {_ascii(solid.name)}"]
    lines += ["v " + " ".join(point) for point in solid.points]
    return _text(lines + [f"f {a + 1} {b + 1} {c + 1}" for a, b, c in solid.triangles])


_XML = '<?xml version="1.0" encoding="UTF-8"?>'
_TYPES = f"""{_XML}
<Types xmlns="http://schemas.openxmlformats.org/package/2006/content-types">
<Default Extension="rels" ContentType="application/vnd.openxmlformats-package.relationships+xml"/>
<Default Extension="model" ContentType="application/vnd.ms-package.3dmanufacturing-3dmodel+xml"/>
</Types>
""".encode()
_RELATIONS = f"""{_XML}
<Relationships xmlns="http://schemas.openxmlformats.org/package/2006/relationships">
<Relationship Target="/3D/3dmodel.model" Id="rel0" Type="http://schemas.microsoft.com/3dmanufacturing/2013/01/3dmodel"/>
</Relationships>
""".encode()


def _3mf(solid: Mesh) -> bytes:
    """The 3MF core specification: a package of one model in millimetres with one object."""
    # (these take as long to load as all other formats)
    import zipfile
    from html import escape

    lines = [
        _XML,
        '<model unit="millimeter" xml:lang="en" xmlns="http://schemas.microsoft.com/3dmanufacturing/core/2015/02">',
        f'<metadata name="Title">{escape(solid.name)}</metadata>',
        f'<metadata name="Description">a unit of the source is {solid.unit} mm</metadata>',
        f'<resources><object id="1" type="model" name="{escape(solid.name)}"><mesh><vertices>',
        *('<vertex x="{}" y="{}" z="{}"/>'.format(*point) for point in solid.points),
        "</vertices><triangles>",
        *('<triangle v1="{}" v2="{}" v3="{}"/>'.format(*triangle) for triangle in solid.triangles),
        "</triangles></mesh></object></resources>",
        '<build><item objectid="1"/></build>',
        "</model>",
    ]
    parts = {"[Content_Types].xml": _TYPES, "_rels/.rels": _RELATIONS, "3D/3dmodel.model": _text(lines)}
    data = io.BytesIO()
    with zipfile.ZipFile(data, "w", zipfile.ZIP_DEFLATED) as package:
        for name, part in parts.items():
            # The date is fixed, so that a solid is always the same file.
            entry = zipfile.ZipInfo(name, (1980, 1, 1, 0, 0, 0))
            entry.compress_type = zipfile.ZIP_DEFLATED
            package.writestr(entry, part)
    return data.getvalue()


def _text(lines: Sequence[str]) -> bytes:
    return "".join(line + "\n" for line in lines).encode()


#: What each format makes of a mesh, by its name.
WRITERS: dict[str, Callable[[Mesh], bytes]] = {"stl": _stl, "binstl": _binary_stl, "off": _off, "obj": _obj, "3mf": _3mf}

#: What the files of these formats begin with.
BEGINS = (b"solid ", b"binary STL of ", b"OFF\n", b"o ", b"PK\3\4")
