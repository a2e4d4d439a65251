// A toy brick with two rows of four studs, in tenths of a millimetre: off2stl --unit 1/10
pitch = 80;
play = 2;
wall = 15;
top = 10;
size = [4 * pitch - play, 2 * pitch - play, 96];

module column(r, c, height) {
  linear_extrude(height)
    polygon([[r, c], [c, r], [-c, r], [-r, c], [-r, -c], [-c, -r], [c, -r], [r, -c]]);
}

difference() {
  cube(size);
  translate([wall, wall, 0]) cube(size - [2 * wall, 2 * wall, top]);
}
for (i = [0 : 3], j = [0 : 1])
  translate([39 + i * pitch, 39 + j * pitch, size.z]) column(24, 10, 18);
for (i = [1 : 3]) translate([i * pitch - 1, pitch - 1, 0]) difference() {
  column(33, 14, size.z - top);
  column(24, 10, size.z - top);
}
