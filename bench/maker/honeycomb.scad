// A box for pens with a honeycomb in its four walls.
size = [62.5, 42.5, 60];
wall = 2.4;
cell = 8; // across flats
rib = 1.6;
frame = 5;

module hexagon(d) circle(d = d / cos(30), $fn = 6);

module honeycomb(w, h) {
  step = cell + rib;
  row = step * sin(60);
  for (j = [0 : floor((h - cell) / row)], i = [0 : floor((w - cell) / step)]) {
    x = cell / 2 + i * step + (j % 2) * step / 2;
    if (x + cell / 2 <= w) translate([x, cell / cos(30) / 2 + j * row]) rotate(30) hexagon(cell);
  }
}

difference() {
  cube(size);
  translate([wall, wall, wall]) cube([size.x - 2 * wall, size.y - 2 * wall, size.z]);
  // the long walls, then the short ones
  translate([frame, size.y + 1, frame]) rotate([90, 0, 0]) linear_extrude(size.y + 2) honeycomb(size.x - 2 * frame, size.z - 2 * frame);
  translate([-1, frame, frame]) rotate([90, 0, 90]) linear_extrude(size.x + 2) honeycomb(size.y - 2 * frame, size.z - 2 * frame);
}
