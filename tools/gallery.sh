#!/bin/sh
# Makes the gallery again: the texts, the pictures and docs/GALLERY.md from the sources in gallery/. With --compare it writes
# nothing and says what differs; with --kept it takes the kept 4OFF texts in place of a run.
top=$(CDPATH='' cd -- "$(dirname -- "$0")/.." && pwd) || exit 2
PYTHONPATH=$top/clients exec python3 -m scadserve.tools.gallery "$@"
