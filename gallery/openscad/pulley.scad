// A pulley for a round belt, 28 in diameter: a profile round an axis, by OpenSCAD's front end.
rotate_extrude($fn = 48)
  polygon([[2.5, 0], [14, 0], [14, 1.5], [10.2, 4.5], [14, 7.5], [14, 9], [2.5, 9]]);
