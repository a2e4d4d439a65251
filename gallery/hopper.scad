// A hopper: a hull with a smaller one taken out of it, over a pipe.
module block(side, z, height) {
  translate([-side / 2, -side / 2, z]) cube([side, side, height]);
}
module funnel(narrow, wide) {
  hull() { block(narrow, 0, 1); block(wide, 30, 4); }
}

difference() { funnel(10, 40); funnel(6, 36); }
difference() { block(10, -12, 12); block(6, -12, 12); }
