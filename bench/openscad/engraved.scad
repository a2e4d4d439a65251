difference() { cube([46, 14, 3]); translate([3, 3.2, 2.2]) linear_extrude(1) text("No. 07", size = 8); }
