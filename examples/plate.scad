// plate with two holes
/* sizes */ w = 6; d = 3.0; t = 1;
module plate() { cube([w, d, t]); }
module drilled(at) {
  assert($children == 2);
  difference() {
    children(0);
    for (i = at) translate([i, 1, 0]) children(1);
  }
}
color("red") drilled([1 : 3 : 4]) {
  plate();
  #cube([1, 1, t]);
}
