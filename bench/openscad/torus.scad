rotate_extrude($fn = 36) translate([12.5, 0]) circle(r = 3.2, $fn = 12);
