$fn = 20;
sphere(d = 9.6);
translate([0, 0, 3]) cylinder(h = 14, d = 5);
translate([0, 0, 17]) cube([12.5, 12.5, 2.5], center = true);
