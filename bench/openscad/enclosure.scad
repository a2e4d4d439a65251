$fn = 24;
w = 62.4; d = 41.8; h = 23.5; t = 1.8;
module shell(w, d, h, r) hull() for (x = [r, w - r], y = [r, d - r]) translate([x, y]) cylinder(r = r, h = h);
difference() {
  shell(w, d, h, 4);
  translate([t, t, t]) shell(w - 2 * t, d - 2 * t, h, 4 - t);
  translate([w / 2 - 6, -1, 6.5]) cube([12, 5, 7.2]);
}
for (x = [6, w - 6], y = [6, d - 6]) translate([x, y, 0]) difference() { cylinder(d = 6.5, h = 12); translate([0, 0, 2]) cylinder(d = 2.5, h = 12); }
