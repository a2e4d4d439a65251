linear_extrude(1.2) square([44, 12]);
translate([3, 2.6, 1.2]) linear_extrude(0.8) text("PUMP 2", size = 7);
