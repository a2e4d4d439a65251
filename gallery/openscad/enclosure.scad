// An enclosure with walls of 1.8, corners rounded by 4 and a slot for a plug, by OpenSCAD's front end.
$fn = 24;
w = 62.4; d = 41.8; h = 23.5; t = 1.8;

module rounded(w, d, h, r)
  hull() for (x = [r, w - r], y = [r, d - r]) translate([x, y]) cylinder(r = r, h = h);

difference() {
  rounded(w, d, h, 4);
  translate([t, t, t]) rounded(w - 2 * t, d - 2 * t, h, 4 - t);
  translate([w / 2 - 6, -1, 6.5]) cube([12, 5, 7.2]);
}
