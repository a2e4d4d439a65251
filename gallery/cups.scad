// Cups of four sizes by one module.
module cup(size, wall = 1) {
  inner = size - 2 * wall;
  difference() {
    cube(size);
    translate([wall, wall, wall]) cube([inner, inner, size - wall]);
  }
}

for (size = [4 : 2 : 10]) translate([size * size / 2, 0, 0]) cup(size);
