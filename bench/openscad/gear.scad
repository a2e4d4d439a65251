// a spur gear with straight flanks
n = 18; m = 1.5;
linear_extrude(6) difference() {
  union() {
    circle(r = m * n / 2 - 1.25 * m, $fn = 72);
    for (i = [0 : n - 1]) rotate(i * 360 / n) translate([m * n / 2 - 2, 0]) polygon([[0, -1.4], [3.4, -0.7], [3.4, 0.7], [0, 1.4]]);
  }
  circle(d = 6, $fn = 32);
}
