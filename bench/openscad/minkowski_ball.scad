minkowski() { cube([16, 11, 6]); sphere(r = 1.75, $fn = 12); }
