difference() { cube([30, 4.5, 30]); translate([15, -1, 15]) rotate([-90, 0, 0]) cylinder(h = 7, d = 5.5, $fn = 24); }
difference() { cube([30, 18, 4.5]); translate([15, 12, -1]) cylinder(h = 7, d = 5.5, $fn = 24); }
translate([0, 4.5, 4.5]) difference() { cube([30, 5, 5]); translate([-1, 5, 5]) rotate([0, 90, 0]) cylinder(h = 32, r = 5, $fn = 32); }
