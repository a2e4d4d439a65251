// A hinge of two leaves that is printed apart: five knuckles round a pin, with half a millimetre of air between them.
// unit: 1/10
use <round.scad>

length = 400;
leaf = 250;
thick = 40;
radius = 50;
pin = 22;
gap = 5;
knuckles = 5;
each_length = length / knuckles;

// a bar along y round the axis of the pin
module barrel(r, from, to) translate([0, from, radius]) along_y(to - from) disc(r, 20);

// the knuckles of one leaf: every second one, from the first or the second on
module knuckles_of(first) {
  for (i = [first : 2 : knuckles - 1]) {
    from = i * each_length + (i == 0 ? 0 : gap);
    to = (i + 1) * each_length - (i == knuckles - 1 ? 0 : gap);
    barrel(radius, from, to);
    // what joins the knuckle with the leaf
    translate([0, from, 0]) cube([radius + 20, to - from, thick]);
  }
}

module leaf_of(first) difference() {
  union() {
    knuckles_of(first);
    translate([radius + gap, 0, 0]) cube([leaf, length, thick]);
  }
  barrel(pin, -10, length + 10);
  for (y = [80, 200, 320]) translate([radius + 150, y, -10]) {
    prism(21, 100, 16);
    translate([0, 0, 30]) taper(21, 41, 20, 16);
  }
}

leaf_of(0);
translate([-20, 0, 0]) mirror([1, 0, 0]) translate([120, 0, 0]) leaf_of(1);
