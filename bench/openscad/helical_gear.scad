n = 10;
linear_extrude(height = 8, twist = 20, slices = 8) {
  circle(r = 8, $fn = 30);
  for (i = [0 : n - 1]) rotate(i * 360 / n) translate([7, 0]) polygon([[0, -1.6], [3, -0.8], [3, 0.8], [0, 1.6]]);
}
