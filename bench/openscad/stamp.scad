cylinder(h = 4, r = 15.5, $fn = 40);
translate([0, 0, 4]) linear_extrude(1.5) offset(r = 0.3) text("OK", size = 11, halign = "center", valign = "center");
