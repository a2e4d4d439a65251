"""The meaning of sources and scripts, run from its definitions."""
