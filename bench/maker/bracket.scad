// A shelf bracket with a fillet in its corner and countersunk screw holes.
use <round.scad>

side = 60;
width = 24;
thick = 5;
bend = 20; // the radius of the fillet

module leg() cube([side, width, thick]);

// a screw hole through the thickness, with a head that tapers
module hole() {
  translate([0, 0, -1]) prism(4, thick + 2, 12);
  translate([0, 0, thick - 3]) taper(4, 7, 3, 12);
}

difference() {
  union() {
    leg();
    cube([thick, width, side]);
    // the fillet stands in the corner between both legs
    translate([thick, width, thick]) rotate([90, 0, 0]) fillet(bend, width, 20);
  }
  for (x = [35, 50]) translate([x, width / 2, 0]) hole();
  for (z = [35, 50]) translate([0, width / 2, z]) rotate([0, 90, 0]) hole();
  // both ends are slanted
  translate([side, 0, -1]) linear_extrude(thick + 2) polygon([[1, -1], [1, 8], [-8, -1]]);
  translate([side, width, -1]) linear_extrude(thick + 2) polygon([[1, 1], [-8, 1], [1, -8]]);
}
