// A heat sink with eight rows of eight pins.
pins = 8;
step = 5;
base = [pins * step, pins * step, 4];

cube(base);
for (i = [0 : pins - 1], j = [0 : pins - 1])
  translate([1 + i * step, 1 + j * step, base.z]) cube([3, 3, 16]);
