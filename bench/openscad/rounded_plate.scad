$fn = 32;
difference() {
  hull() for (x = [4, 46.5], y = [4, 26.5]) translate([x, y]) cylinder(r = 4, h = 2.4);
  for (x = [4, 46.5], y = [4, 26.5]) translate([x, y, -1]) cylinder(d = 3.4, h = 5);
}
