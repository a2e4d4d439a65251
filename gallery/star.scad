// Two tetrahedra in one cube: Kepler's stella octangula.
side = 12;

module tetrahedron() {
  polyhedron([[0, 0, 0], [side, side, 0], [side, 0, side], [0, side, side]],
             [[0, 2, 1], [0, 1, 3], [0, 3, 2], [1, 2, 3]]);
}

tetrahedron();
translate([side, 0, 0]) rotate(90) tetrahedron();
