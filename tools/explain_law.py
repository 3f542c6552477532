"""Says what parts where a transcript breaks a law: the record, the nodes and the versions, and the lines that say so.

The program says which law is broken and by which line. What is said here is searched for in the lines up to that one, by
the law's own definition (docs/READINGS.md); where nothing is found, nothing is said.
"""
from __future__ import annotations

from typing import Callable, Optional

import explain_joins
import explain_lines
import explain_loss
import explain_map
import explain_settling
import explain_shape

Find = Callable[[bytes, explain_lines.Line], Optional[explain_lines.Finding]]
FINDS: dict[str, Find] = {
    "shape": explain_shape.find,
    "onemap": explain_map.find,
    "noloss": explain_loss.find,
    "settledjoin": explain_settling.find,
    "readjoin": explain_joins.find,
}


def what_parts(transcript: bytes, law: str, number: int) -> list[str]:
    """In lines, what parts in the transcript where the line of that number breaks the law."""
    line = explain_lines.line_of(number, explain_lines.line_at(transcript, number))
    finding = FINDS[law](transcript, line)
    return explain_lines.told(finding, number) if finding else []
