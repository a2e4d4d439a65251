hull() { sphere(r = 4.2, $fn = 20); translate([18.5, 0, 0]) sphere(r = 4.2, $fn = 20); }
