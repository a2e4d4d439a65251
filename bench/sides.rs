// The same sums of products in plain Rust, over the same planes.
use std::time::Instant;

const TESTS: usize = 1024;
const ROUNDS: u64 = 16_384;

#[derive(Clone, Copy)]
struct Plane {
    a: i64,
    b: i64,
    c: i64,
    d: i64,
}

fn next(seed: &mut u64) -> u64 {
    *seed = seed
        .wrapping_mul(6_364_136_223_846_793_005)
        .wrapping_add(1_442_695_040_888_963_407);
    *seed >> 33
}

fn coordinate(seed: &mut u64) -> i64 {
    (next(seed) % 8191) as i64 - 4095
}

fn greatest_divisor(a: u64, b: u64) -> u64 {
    if b == 0 { a } else { greatest_divisor(b, a % b) }
}

fn some_plane(seed: &mut u64) -> Option<Plane> {
    let mut point = || [coordinate(seed), coordinate(seed), coordinate(seed)];
    let (p, q, r) = (point(), point(), point());
    let minor = |i: usize, j: usize| (q[i] - p[i]) * (r[j] - p[j]) - (q[j] - p[j]) * (r[i] - p[i]);
    let (a, b, c) = (minor(1, 2), minor(2, 0), minor(0, 1));
    let d = a * p[0] + b * p[1] + c * p[2];
    if a == 0 && b == 0 && c == 0 {
        return None;
    }
    let by = [a, b, c, d]
        .iter()
        .fold(0, |by, number| greatest_divisor(by, number.unsigned_abs())) as i64;
    Some(Plane { a: a / by, b: b / by, c: c / by, d: d / by })
}

fn dot(a: i64, b: i64, c: i64, x: i64, y: i64, z: i64) -> i128 {
    i128::from(a) * i128::from(x) + i128::from(b) * i128::from(y) + i128::from(c) * i128::from(z)
}

fn cross(p: &Plane, q: &Plane) -> (i64, i64, i64) {
    (p.b * q.c - p.c * q.b, p.c * q.a - p.a * q.c, p.a * q.b - p.b * q.a)
}

fn meeting(p: &Plane, q: &Plane, r: &Plane) -> (i128, i128, i128, i128) {
    let (first, second, third) = (cross(q, r), cross(r, p), cross(p, q));
    (
        dot(p.d, q.d, r.d, first.0, second.0, third.0),
        dot(p.d, q.d, r.d, first.1, second.1, third.1),
        dot(p.d, q.d, r.d, first.2, second.2, third.2),
        dot(p.a, p.b, p.c, first.0, first.1, first.2),
    )
}

fn is_behind(p: &Plane, q: &Plane, r: &Plane, s: &Plane) -> bool {
    let (x, y, z, w) = meeting(p, q, r);
    let value = i128::from(s.a) * x + i128::from(s.b) * y + i128::from(s.c) * z - i128::from(s.d) * w;
    (if w < 0 { -value } else { value }) < 0
}

fn main() {
    let mut seed = 1;
    let mut tests = Vec::new();
    for _ in 0..TESTS {
        let four = (some_plane(&mut seed), some_plane(&mut seed), some_plane(&mut seed), some_plane(&mut seed));
        if let (Some(p), Some(q), Some(r), Some(s)) = four {
            if meeting(&p, &q, &r).3 != 0 {
                tests.push((p, q, r, s));
            }
        }
    }
    let start = Instant::now();
    let mut behind = 0u64;
    for _ in 0..ROUNDS {
        for (p, q, r, s) in std::hint::black_box(&tests) {
            if is_behind(p, q, r, s) {
                behind += 1;
            }
        }
    }
    let millis = start.elapsed().as_millis().max(1);
    let sides = tests.len() as u64 * ROUNDS;
    println!("plain Rust: {sides} sides, {behind} behind, {} sides a second", u128::from(sides) * 1000 / millis);
}
