// a spacer with a hole of 3.2
$fn = 24;
difference() { cylinder(h = 5.5, d = 8); translate([0, 0, -1]) cylinder(h = 8, d = 3.2); }
