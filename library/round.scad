// Round shapes in whole numbers: prisms, tapers, rings, rounded plates, fillets and bars.
//
//     use <round.scad>
//     difference() { plate([60, 40, 5], 8); translate([30, 20, -1]) prism(10, 7); }
//
// The tools of scadserve find this file by themselves. OpenSCAD finds it where OPENSCADPATH names its folder, and makes the
// same solids of it.
//
// `corners` is 8, 12, 16 or 20. A prism has the corners of OpenSCAD's cylinder(h, r, $fn = corners), each coordinate rounded
// to the nearest whole number, a half away from 0: no corner is off by more than 0.71 of a unit. The least radius is 3 for 8
// corners, 4 for 12, 7 for 16 and 12 for 20, since fewer corners are left of a smaller one: it fails an assertion.

// a times b parts of 10^9, rounded to the nearest whole number; neither is below 0
function _part(a, b) = (2 * a * b + 1000000000 - (2 * a * b + 1000000000) % 2000000000) / 2000000000;
// r times the cosines of the angles from 0 to less than 90 degrees
function _radii(r, corners) = corners == 8 ? [r, _part(r, 707106781)]
  : corners == 12 ? [r, _part(r, 866025404), _part(r, 500000000)]
  : corners == 16 ? [r, _part(r, 923879533), _part(r, 707106781), _part(r, 382683432)]
  : [r, _part(r, 951056516), _part(r, 809016994), _part(r, 587785252), _part(r, 309016994)];
// the point that is so far right of [x, y] and so far up, once [1, 0] is turned to [p, q]
function _at(x, y, p, q, right, up) = [x + p * right - q * up, y + q * right + p * up];
// the corners of a quarter of a circle, counterclockwise, without the last one
function _arc(c, x, y, p, q) = len(c) == 2 ? [_at(x, y, p, q, c[0], 0), _at(x, y, p, q, c[1], c[1])]
  : len(c) == 3 ? [_at(x, y, p, q, c[0], 0), _at(x, y, p, q, c[1], c[2]), _at(x, y, p, q, c[2], c[1])]
  : len(c) == 4 ? [_at(x, y, p, q, c[0], 0), _at(x, y, p, q, c[1], c[3]), _at(x, y, p, q, c[2], c[2]), _at(x, y, p, q, c[3], c[1])]
  : [_at(x, y, p, q, c[0], 0), _at(x, y, p, q, c[1], c[4]), _at(x, y, p, q, c[2], c[3]), _at(x, y, p, q, c[3], c[2]),
    _at(x, y, p, q, c[4], c[1])];
// the same with the last one
function _whole_arc(c, x, y, p, q) = concat(_arc(c, x, y, p, q), [_at(x, y, p, q, 0, c[0])]);

module _test(r, corners) {
  assert(corners == 8 || corners == 12 || corners == 16 || corners == 20, "corners is 8, 12, 16 or 20");
  assert(r >= (corners == 8 ? 3 : corners == 12 ? 4 : corners == 16 ? 7 : 12), "the radius is too small for this many corners");
}

// a disc in the plane, for linear_extrude and for bars
module disc(r, corners = 12) {
  _test(r, corners);
  c = _radii(r, corners);
  polygon(concat(_arc(c, 0, 0, 1, 0), _arc(c, 0, 0, 0, 1), _arc(c, 0, 0, -1, 0), _arc(c, 0, 0, 0, -1)));
}

// a rectangle in the plane with round corners, from the origin on
module rounded(size, r, corners = 12) {
  _test(r, corners);
  assert(size.x > 2 * r && size.y > 2 * r, "both sides are longer than two radii");
  c = _radii(r, corners);
  polygon(concat(_whole_arc(c, size.x - r, size.y - r, 1, 0), _whole_arc(c, r, size.y - r, 0, 1), _whole_arc(c, r, r, -1, 0),
    _whole_arc(c, size.x - r, r, 0, -1)));
}

// a prism on the plane, as cylinder(h, r)
module prism(r, h, corners = 12) linear_extrude(h) disc(r, corners);

// a prism with a hole, which has as many corners
module ring(r, hole, h, corners = 12) difference() {
  prism(r, h, corners);
  translate([0, 0, -1]) prism(hole, h + 2, corners);
}

// from a circle on the plane to one at the height h, of which one may have the radius 0, as cylinder(h, r1, r2)
module taper(r1, r2, h, corners = 12) hull() {
  if (r1 > 0) _cone(r1, h, corners);
  if (r2 > 0) translate([0, 0, h]) mirror([0, 0, 1]) _cone(r2, h, corners);
}
// cones with four corners each, which are together those of a circle, and with one tip
module _cone(r, h, corners) {
  _test(r, corners);
  for (at = _arc(_radii(r, corners), 0, 0, 1, 0)) multmatrix([[at.x, -at.y, 0, 0], [at.y, at.x, 0, 0], [0, 0, 1, 0]])
    cylinder(h = h, r1 = 1, r2 = 0, $fn = 4);
}

// a plate with round corners, from the origin on
module plate(size, r, corners = 12) linear_extrude(size.z) rounded(size, r, corners);

// what fills the edge between two walls, x = 0 and y = 0, up to a circle that touches both
module fillet(r, h, corners = 12) difference() {
  cube([r, r, h]);
  translate([r, r, -1]) prism(r, h + 2, corners);
}

// bars of a shape in the plane: from 0 to l along x, of a shape in y and z; along y, of one in x and z; and along z
module along_x(l) rotate([90, 0, 90]) linear_extrude(l) children();
module along_y(l) translate([0, l, 0]) rotate([90, 0, 0]) linear_extrude(l) children();
module along_z(l) linear_extrude(l) children();
