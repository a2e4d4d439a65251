// a number below has a point, and is not whole
cube([1,2.5,3]);
