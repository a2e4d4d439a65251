// an angle bracket with a rib and two holes
thick = 2;
difference() {
  union() {
    cube([20, 12, thick]);
    cube([thick, 12, 16]);
    translate([thick, 7, thick]) rotate([90, 0, 0])
      linear_extrude(2) polygon([[0, 0], [8, 0], [0, 8]]);
  }
  translate([14, 4, 0]) cube([4, 4, thick]);
  translate([0, 4, 11]) cube([thick, 4, 3]);
}
