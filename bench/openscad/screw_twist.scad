linear_extrude(height = 20, twist = 720, slices = 48) translate([0.8, 0]) circle(r = 4, $fn = 16);
