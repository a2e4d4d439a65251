// A Menger sponge of two levels: holes of each size along each axis.
side = 9;

module holes(size) {
  step = 3 * size;
  for (i = [0 : step : side - 1], j = [0 : step : side - 1])
    translate([i + size, j + size, 0]) cube([size, size, side]);
}

module all_ways() {
  children();
  translate([0, side, 0]) rotate([90, 0, 0]) children();
  rotate([90, 0, 90]) children();
}

difference() {
  cube(side);
  for (size = [3, 1]) all_ways() holes(size);
}
