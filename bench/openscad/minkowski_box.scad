minkowski() { cube([22, 14, 4.5]); cylinder(r = 2.5, h = 1, $fn = 24); }
