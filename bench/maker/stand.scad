// A phone stand: a slanted back, a lip in front and a hole for the charging cable.
use <round.scad>

width = 70;
depth = 80;
back = 90; // how high the back is
thick = 8;

// a bar along the whole width, of a shape from the side
module side(points) along_x(width) polygon(points);

module stand() {
  // the foot, and the lip that holds the phone
  side([[0, 0], [depth, 0], [depth, thick], [0, thick]]);
  side([[0, 0], [thick, 0], [thick, 20], [4, 22], [0, 20]]);
  // the back, which leans away from the lip, and what props it up
  side([[24, 0], [34, 0], [64, back], [54, back]]);
  side([[depth, 0], [depth, thick], [62, 84], [58, 72], [72, 0]]);
}

difference() {
  stand();
  // the cable goes through the lip, and the middle of the back is open
  translate([width / 2 - 8, -1, thick]) cube([16, thick + 2, 20]);
  translate([width / 2 - 20, 20, 24]) cube([40, depth, 40]);
  // round notches in the ends of the foot
  for (x = [0, width]) translate([x, depth, -1]) prism(12, thick + 2, 16);
}
