"""The folder of the starter `scadserve`, of the documents and the examples."""

import os

_PACKAGE = os.path.dirname(os.path.realpath(__file__))
_INSTALLED = os.path.join(_PACKAGE, "release")

#: The top of the repository or of a release. What pip installs has the part of it that is needed beside the modules.
TOP = _INSTALLED if os.path.isdir(_INSTALLED) else os.path.dirname(os.path.dirname(_PACKAGE))
#: The folder of what each source can include and use.
LIBRARY = os.path.join(TOP, "library")
