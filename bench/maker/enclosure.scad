// An enclosure for a small board, 80 x 50 x 30, with four screw posts and a slot for a cable; its lid lies beside it.
use <round.scad>

length = 80;
width = 50;
height = 30;
wall = 2;
corner = 6;
post = 4; // the radius of a post
lip = 3;

// a module at each of the four posts
module at_posts() {
  for (x = [corner + 2, length - corner - 2], y = [corner + 2, width - corner - 2]) translate([x, y, 0]) children();
}

module shell() difference() {
  plate([length, width, height], corner);
  translate([wall, wall, wall]) plate([length - 2 * wall, width - 2 * wall, height], corner - wall + 1);
}

module box() difference() {
  union() {
    shell();
    at_posts() prism(post, height - lip);
  }
  // pilot holes for the screws, and the slot for the cable
  at_posts() translate([0, 0, 10]) prism(3, height, 8);
  translate([-1, width / 2 - 5, 8]) cube([wall + 2, 10, 6]);
}

module lid() difference() {
  union() {
    plate([length, width, wall], corner);
    translate([wall, wall, 0]) plate([length - 2 * wall, width - 2 * wall, wall + lip], corner - wall + 1);
  }
  translate([2 * wall, 2 * wall, wall]) plate([length - 4 * wall, width - 4 * wall, lip + 1], 4);
  at_posts() translate([0, 0, -1]) prism(4, wall + lip + 2);
}

box();
translate([0, width + 10, 0]) lid();
