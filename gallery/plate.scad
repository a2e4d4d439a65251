// A mounting plate with four eight-sided holes and a slot.
size = [60, 40, 4];
margin = 8;

module hole() {
  linear_extrude(size.z)
    polygon([[3, 1], [1, 3], [-1, 3], [-3, 1], [-3, -1], [-1, -3], [1, -3], [3, -1]]);
}

difference() {
  cube(size);
  for (x = [margin, size.x - margin], y = [margin, size.y - margin])
    translate([x, y, 0]) hole();
  translate([20, 16, 0]) cube([20, 8, size.z]);
}
