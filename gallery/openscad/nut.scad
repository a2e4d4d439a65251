// A hexagon nut, 5.2 high, with a bore of 6.4 that is chamfered on both sides, by OpenSCAD's front end.
h = 5.2; r = 3.2; c = 0.6;
difference() {
  cylinder(h = h, d = 11.5, $fn = 6);
  translate([0, 0, -1]) cylinder(h = h + 2, r = r, $fn = 24);
  translate([0, 0, h - c]) cylinder(h = 2 * c, r1 = r, r2 = r + 2 * c, $fn = 24);
  translate([0, 0, -c]) cylinder(h = 2 * c, r1 = r + 2 * c, r2 = r, $fn = 24);
}
