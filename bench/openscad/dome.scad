difference() { sphere(r = 14.5, $fn = 24); sphere(r = 12.5, $fn = 24); translate([0, 0, -15]) cube([32, 32, 30], center = true); }
