"""Solids: 4OFF texts read, closed, merged, measured, and written as meshes."""
