"""Tests that need programs: `tools/check.sh` tells from what they say which ones are to be installed."""

import shutil
import unittest


def needs(*programs):
    """Skips a test, or a class of tests, where one of these programs isn't installed."""
    missing = [it for it in programs if not shutil.which(it)]
    return unittest.skipIf(missing, "needs " + ", ".join(missing))
