linear_extrude(12) polygon(concat([for (x = [0 : 2 : 60]) [x, 3 * sin(12 * x)]], [for (x = [60 : -2 : 0]) [x, 3 * sin(12 * x) + 1.6]]));
