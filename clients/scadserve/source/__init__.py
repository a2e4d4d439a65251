"""Sources: tokens, structure, includes, units, and what faults say."""
