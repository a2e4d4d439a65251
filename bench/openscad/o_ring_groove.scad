difference() {
  cylinder(h = 14, r = 9, $fn = 40);
  translate([0, 0, 7]) rotate_extrude($fn = 40) translate([9, 0]) circle(r = 1.4, $fn = 12);
}
