// A burr puzzle of three boards, in tenths of a millimetre: put together, and its boards one by one.
// The first board goes through the slot of the second, and then the third down through the slot of the first.
long = 120;
broad = 80;
thick = 20;
play = 1;

// A board with a slot for another one, which goes on by `more` at one end.
module board(more) {
  slot = broad + 2 * play + more;
  difference() {
    cube([long, broad, thick], center = true);
    translate([more / 2, 0, 0]) cube([slot, thick + 2 * play, thick], center = true);
  }
}

module first() board(0);
module second() board(0);
module third() board(long - broad - 2 * play);

first();
rotate([90, 0, 90]) second();
rotate([0, 90, 90]) third();

translate([160, -50, -50]) first();
translate([160, 50, -50]) second();
translate([300, 0, -50]) third();
