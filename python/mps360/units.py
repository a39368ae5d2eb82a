r"""Units of rows and columns, as a file's remarks give them: a line for each, in an MPS file or on the cards of a job

    * UNITS FLOUR: kg

and in an LP file the same behind a backslash, \ UNITS FLOUR: kg. The unit stands behind the last colon. Nothing is computed with units: they are shown."""
from __future__ import annotations

import re

UNITS = re.compile(r"^[ \t]*[*\\][ \t]*UNITS[ \t]+(\S.*?)[ \t]*:[ \t]*([^:\r\n]*[^:\s])[ \t]*\r?$", re.M)


def units_of(text: str) -> dict[str, str]:
    "from the name of a row or a column to its unit; of two units for one name the later counts"
    return {found[1]: found[2] for found in UNITS.finditer(text)} if "UNITS" in text else {}
