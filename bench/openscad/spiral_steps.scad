cylinder(h = 36, r = 2.5, $fn = 20);
for (i = [0 : 11]) rotate(30 * i) translate([0, -2, 3 * i]) cube([14.5, 4, 1.5]);
