// A house with a door, windows, a roof and a chimney.
wall = 1;
size = [20, 14, 10];

module walls() {
  difference() {
    cube(size);
    translate([wall, wall, wall]) cube([size.x - 2 * wall, size.y - 2 * wall, size.z - wall]);
    translate([8, 0, wall]) cube([4, wall, 6]);
    for (x = [3, 14]) translate([x, 0, 4]) cube([3, wall, 3]);
    for (y = [3, 8]) translate([size.x - wall, y, 4]) cube([wall, 3, 3]);
  }
}

walls();
translate([-1, 0, size.z]) rotate([90, 0, 90])
  linear_extrude(size.x + 2) polygon([[-1, 0], [size.y + 1, 0], [7, 6]]);
translate([14, 2, size.z]) cube([2, 2, 8]);
