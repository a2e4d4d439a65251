rotate_extrude(angle = 270, $fn = 32) translate([10, 0]) difference() { circle(r = 4, $fn = 12); circle(r = 2.5, $fn = 12); }
