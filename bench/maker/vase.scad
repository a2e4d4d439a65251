// A twisted vase with eight lobes, hollow, and wider at its rim.
height = 90;
lobes = 8;
wall = 1.6;
floor_height = 2;

function lobed(r) = [for (a = [0 : 7.5 : 359]) r * (1 + 0.08 * cos(lobes * a)) * [cos(a), sin(a)]];

module body(r, h) linear_extrude(height = h, twist = 60, scale = 1.35, slices = 30) polygon(lobed(r));

difference() {
  body(24, height);
  // the same, smaller, from the floor to above the rim
  translate([0, 0, floor_height]) body(24 - wall, height);
}
