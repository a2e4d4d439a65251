// Two boards with a dovetail joint, drawn apart.
board = [30, 24, 10];
gap = 8;

module tail() {
  linear_extrude(board.z) polygon([[-4, 0], [4, 0], [6, 8], [-6, 8]]);
}

cube(board);
translate([15, board.y, 0]) tail();

translate([0, board.y + 8 + gap, 0]) difference() {
  cube(board);
  translate([15, 0, 0]) tail();
}
