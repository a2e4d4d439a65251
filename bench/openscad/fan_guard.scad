linear_extrude(2) {
  for (r = [6, 12, 18]) difference() { circle(r = r + 0.9, $fn = 40); circle(r = r - 0.9, $fn = 40); }
  for (a = [0 : 45 : 135]) rotate(a) square([38, 1.8], center = true);
}
