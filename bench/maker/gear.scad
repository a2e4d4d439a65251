// An involute gear of 18 teeth with a bore and a keyway.
teeth = 18;
module_size = 2;
pressure = 20;
height = 6;
bore = 8;

pitch = teeth * module_size / 2;
base = pitch * cos(pressure);
outer = pitch + module_size;
root = pitch - 1.25 * module_size;
steps = 5;

// the angle in degrees by which the involute has turned at a radius
function involute(r) = sqrt(pow(r / base, 2) - 1) * 180 / PI - acos(base / r);
function polar(r, a) = [r * cos(a), r * sin(a)];

half_tooth = 90 / teeth + involute(pitch);
flank = [for (i = [0 : steps]) let (r = base + (outer - base) * i / steps) [r, half_tooth - involute(r)]];

module tooth_outline() {
  polygon([for (t = [0 : teeth - 1]) each concat(
    [polar(root, (t * 360) / teeth - half_tooth)],
    [for (i = [0 : steps]) polar(flank[i][0], t * 360 / teeth - flank[i][1])],
    [for (i = [steps : -1 : 0]) polar(flank[i][0], t * 360 / teeth + flank[i][1])],
    [polar(root, (t * 360) / teeth + half_tooth)]
  )]);
}

linear_extrude(height) difference() {
  tooth_outline();
  circle(d = bore, $fn = 32);
  translate([0, -1.25]) square([bore / 2 + 1.4, 2.5]);
}
