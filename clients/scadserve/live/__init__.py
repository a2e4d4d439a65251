"""The live server: a page in which sources are edited and their solids turn, for many clients at once."""
