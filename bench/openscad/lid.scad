$fn = 24;
union() {
  hull() for (x = [4, 58.4], y = [4, 37.8]) translate([x, y]) cylinder(r = 4, h = 2);
  translate([2.05, 2.05, 0]) difference() { cube([58.3, 37.7, 4.5]); translate([1.5, 1.5, -1]) cube([55.3, 34.7, 7]); }
}
