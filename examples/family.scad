// cups of three sizes by one module
module cup(size, wall = 1) {
  inner = size - 2 * wall;
  difference() {
    cube([size, size, size]);
    translate([wall, wall, wall]) cube([inner, inner, size - wall]);
  }
}
for (size = [4 : 2 : 8]) translate([size * size, 0, 0]) cup(size);
