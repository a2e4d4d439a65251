// A ring of 24 bows, 6.4 thick with twelve sides, by OpenSCAD's front end.
rotate_extrude($fn = 24) translate([12.5, 0]) circle(r = 3.2, $fn = 12);
