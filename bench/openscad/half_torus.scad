rotate_extrude(angle = 180, $fn = 36) translate([10, 0]) square([3.5, 5]);
