hull() for (x = [3, 27], y = [3, 17], z = [3, 9]) translate([x, y, z]) sphere(r = 3, $fn = 16);
