$fn = 36;
difference() {
  union() { cylinder(h = 12, r1 = 11, r2 = 9.5); translate([0, 0, 12]) cylinder(h = 1.5, r1 = 9.5, r2 = 8); }
  for (a = [0 : 30 : 330]) rotate(a) translate([11.5, 0, -1]) cylinder(h = 20, r = 1.5, $fn = 16);
  translate([0, 0, -1]) cylinder(h = 9, d = 6);
}
