linear_extrude(height = 9, scale = 0.6) polygon([for (i = [0 : 9]) let (r = i % 2 ? 5.5 : 12) [r * cos(36 * i), r * sin(36 * i)]]);
