// A label for a drawer: raised letters on a plate with round corners and two holes.
words = "M3 x 8";
size = [58, 16, 1.6];

module plate() linear_extrude(size.z) difference() {
  offset(r = 3, $fn = 32) offset(delta = -3) square([size.x, size.y], center = true);
  for (x = [-1, 1]) translate([x * (size.x / 2 - 4), 0]) circle(d = 3.2, $fn = 24);
}

plate();
translate([0, 0, size.z]) linear_extrude(0.8) text(words, size = 8, halign = "center", valign = "center", $fn = 8);
