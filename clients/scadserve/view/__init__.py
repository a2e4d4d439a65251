"""Pictures of solids: SVG and the page in which a solid turns."""
