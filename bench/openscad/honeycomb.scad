difference() {
  cube([48, 40, 2.5]);
  for (i = [0 : 4], j = [0 : 3]) translate([5 + i * 9.5, 6 + j * 9.2 + (i % 2) * 4.6, -1]) cylinder(h = 5, d = 8.2, $fn = 6);
}
