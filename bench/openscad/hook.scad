linear_extrude(5) {
  difference() { circle(r = 9, $fn = 48); circle(r = 6, $fn = 48); translate([0, -10]) square([10, 10]); }
  translate([6, -14.5]) square([3, 14.5]);
}
