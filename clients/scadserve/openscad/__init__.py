"""The converter of OpenSCAD's evaluated form: designs of any shapes as sources of whole numbers."""
