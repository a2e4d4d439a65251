// A spiral stair of 20 steps about a column; corners lie on circles, by the triangles 3 4 5 and 7 24 25.
rim = [[25, 0], [24, 7], [20, 15], [15, 20], [7, 24], [0, 25]];
core = [[5, 0], [4, 3], [3, 4], [0, 5], [-3, 4], [-4, 3], [-5, 0], [-4, -3], [-3, -4], [0, -5], [3, -4], [4, -3]];
rise = 3;

module step(k) {
  linear_extrude(rise + 1) polygon([[0, 0], rim[k], rim[k + 1]]);
}

linear_extrude(80) polygon(core);
for (quarter = [0 : 3], k = [0 : 4])
  rotate(90 * quarter) translate([0, 0, rise * (5 * quarter + k)]) step(k);
