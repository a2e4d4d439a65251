linear_extrude(3.2) difference() {
  hull() { circle(r = 14, $fn = 48); translate([52, 0]) circle(r = 7.5, $fn = 32); }
  scale([1, 0.8]) circle(r = 10.2, $fn = 40);
  translate([52, 0]) circle(r = 3, $fn = 24);
}
