$fn = 24;
difference() {
  union() { cylinder(h = 20, d = 10); rotate([0, 90, 0]) cylinder(h = 20, d = 10); sphere(d = 10); }
  cylinder(h = 21, d = 7); rotate([0, 90, 0]) cylinder(h = 21, d = 7);
}
