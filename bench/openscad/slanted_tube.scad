rotate([32, 20, 15]) difference() { cylinder(h = 30, r = 5, $fn = 24); translate([0, 0, -1]) cylinder(h = 32, r = 3.6, $fn = 24); }
