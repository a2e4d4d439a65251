// a thread of turned pieces round a core
r = 6; pitch = 2; steps = 24; turns = 3;
cylinder(r = r - 0.9, h = pitch * (turns + 1), $fn = steps);
module tooth() rotate([90, 0, 0]) linear_extrude(0.1, center = true) polygon([[r - 1.2, -0.8], [r, 0], [r - 1.2, 0.8]]);
for (i = [0 : steps * turns - 1]) hull() for (k = [0, 1])
  rotate((i + k) * 360 / steps) translate([0, 0, pitch / 2 + (i + k) * pitch / steps]) tooth();
