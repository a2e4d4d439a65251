m = 6;
difference() { cylinder(h = 5, d = m * 1.8, $fn = 6); translate([0, 0, -1]) cylinder(h = 7, d = m, $fn = 36); }
