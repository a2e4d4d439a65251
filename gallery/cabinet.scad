// A cabinet with three drawers, each pulled out further than the one above it.
opening = [36, 28, 12];
wall = 2;
drawers = 3;
rise = opening.z + wall;

module carcass() {
  difference() {
    cube([opening.x + 2 * wall, opening.y + wall, drawers * rise + wall]);
    for (i = [0 : drawers - 1])
      translate([wall, 0, wall + i * rise]) cube(opening);
  }
}

module drawer() {
  size = opening - [2, 0, 2];
  difference() {
    cube(size);
    translate([wall, wall, wall]) cube(size - [2 * wall, 2 * wall, wall]);
  }
  translate([size.x / 2 - 3, -2, 4]) cube([6, 2, 2]);
}

carcass();
for (i = [0 : drawers - 1])
  translate([wall + 1, -8 * (drawers - 1 - i), wall + 1 + i * rise]) drawer();
