// A bowl between two balls of 24 corners, 1.6 thick, by OpenSCAD's front end.
difference() {
  sphere(r = 20, $fn = 24);
  sphere(r = 18.4, $fn = 24);
  translate([-25, -25, 0]) cube([50, 50, 25]);
}
