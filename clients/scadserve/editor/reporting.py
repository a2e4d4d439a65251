"""What an editor shows of a check: diagnostics at places of a text, with what belongs to them elsewhere."""

from __future__ import annotations

import os
from typing import Any

from ..source.faults import TOKEN
from ..source.sources import Spot
from ..source.telling import Message
from .checking import Checked
from .documents import Documents, Document
from .texts import Text

ERROR, WARNING, INFORMATION = 1, 2, 3


def diagnostics(documents: Documents, document: Document, checked: Checked) -> list[dict[str, Any]]:
    """What is shown of a check of an open text: its fault as an error, want of time as a warning, notes as information."""
    faults = [_diagnostic(documents, document, it, _severity(it)) for it in checked.faults]
    return faults + [_diagnostic(documents, document, it, INFORMATION) for it in checked.notes]


def _severity(message: Message) -> int:
    return WARNING if message.word in ("OutOfTime", "nomem", "Empty") else ERROR


def _diagnostic(documents: Documents, document: Document, message: Message, severity: int) -> dict[str, Any]:
    """A message at its place. What stands in another file is shown where the text includes or uses that file."""
    spots = [spot for spot in [message.spot] if spot is not None] + [spot for spot, _ in message.notes]
    own = [it for it in spots if _is_in(it, document)]
    elsewhere = message.spot is not None and not _is_in(message.spot, document)
    where = f"{message.place}: " if elsewhere else ""
    found: dict[str, Any] = {
        "range": _range(document.text, own[0] if own else None),
        "severity": severity,
        "code": message.word,
        "source": "scadserve",
        "message": f"{where}{message.said}" + (f"\ncure: {message.cure}" if message.cure else ""),
    }
    notes = [(message.spot, message.said)] * elsewhere + list(message.notes)
    related = [it for it in (_related(documents, spot, what) for spot, what in notes if spot is not None) if it]
    if related:
        found["relatedInformation"] = related
    return found


def _is_in(spot: Spot, document: Document) -> bool:
    return not spot.file.startswith("-D ") and os.path.realpath(spot.file) == os.path.realpath(document.path)


def _range(text: Text, spot: Spot | None) -> dict[str, Any]:
    """The token at a spot; the whole of the first line for none."""
    if spot is None:
        return text.range(0, len(text.data.partition(b"\n")[0]))
    start = text.byte(spot.line, spot.column)
    token = TOKEN.match(text.data, start)
    # (at the end there is none, and what isn't closed goes on)
    return text.range(start, start + len(token[0].partition(b"\n")[0]) if token else start)


def _related(documents: Documents, spot: Spot, what: str) -> dict[str, Any] | None:
    """A note at its place; None where that is not a file, or can't be read."""
    if spot.file.startswith("-D "):
        return None
    try:
        text = documents.text(spot.file)
    except OSError:
        return None
    return {"location": {"uri": documents.uri(spot.file), "range": _range(text, spot)}, "message": what}
