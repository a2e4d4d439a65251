// A knob with grips round it and a thread on its shaft.
$fn = 48;
diameter = 32;
height = 12;
grips = 12;
thread = 10;
pitch = 2.5;
turns = 6;

module head() difference() {
  hull() {
    cylinder(d = diameter - 3, h = height);
    translate([0, 0, 1.5]) cylinder(d = diameter, h = height - 3);
  }
  for (i = [0 : grips - 1]) rotate(i * 360 / grips) translate([diameter / 2 + 1, 0, -1]) cylinder(d = 5, h = height + 2, $fn = 24);
}

// a thread as makers draw it: a circle off the axis that turns on its way up
module shaft() translate([0, 0, height]) {
  linear_extrude(height = pitch * turns, twist = -360 * turns, slices = 24 * turns) translate([0.6, 0]) circle(d = thread - 1.2, $fn = 24);
  translate([0, 0, pitch * turns]) cylinder(d1 = thread - 2.4, d2 = thread - 4, h = 1);
}

head();
shaft();
