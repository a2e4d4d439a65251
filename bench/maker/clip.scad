// A clip for a cable of 6.4 mm, with a foot that is screwed to a wall. Lengths are tenths of a millimetre.
// unit: 1/10
use <round.scad>

cable = 32; // the radius of the cable
wall = 16;
width = 95;
mouth = 22; // half of the opening, less than the radius, so that the cable snaps in
foot = [170, width, 24];
screw = [132, 47, 0];

module jaw() difference() {
  prism(cable + wall, width, 20);
  translate([0, 0, -5]) {
    prism(cable, width + 10, 20);
    // the mouth, which widens to the outside
    linear_extrude(width + 10) {
      translate([-mouth, 0]) square([2 * mouth, 30]);
      polygon([[-mouth, 26], [mouth, 26], [40, 60], [-40, 60]]);
    }
  }
}

difference() {
  plate(foot, 15, 12);
  translate(screw) {
    translate([0, 0, -5]) prism(17, foot.z + 10, 16);
    translate([0, 0, 10]) taper(17, 31, 14, 16);
  }
}
// the jaw lies on the foot, with its axis along y
translate([48, width, cable + wall + 16]) rotate([90, 0, 0]) jaw();
