difference() { cylinder(h = 1.6, r = 6, $fn = 40); translate([0, 0, -0.1]) cylinder(h = 2, r = 3.25, $fn = 40); }
