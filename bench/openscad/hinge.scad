$fn = 28;
for (k = [0, 2]) translate([0, 0, k * 8.2]) difference() { union() { cylinder(d = 8, h = 8); translate([0, -4, 0]) cube([18, 3, 8]); } translate([0, 0, -1]) cylinder(d = 3.1, h = 10); }
