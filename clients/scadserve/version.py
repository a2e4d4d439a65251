"""The version: it stands in the file VERSION beside this module alone, which the starter and the releases read too."""

import os

# (pathlib would take each tool as long to load as three of its own modules)
with open(os.path.join(os.path.dirname(__file__), "VERSION"), encoding="ascii") as _file:
    #: Three numbers, as in 1.0.0.
    VERSION = _file.read().strip()
