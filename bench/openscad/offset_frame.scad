linear_extrude(3) difference() { offset(r = 3.5, $fn = 32) square([30, 18]); offset(delta = -2) square([30, 18]); }
