//! Roots beside the machine's own, bit by bit: COUNT values of each kind, and 16 for each exponent and sign.

use crate::together::random::Random;

type Kind = fn(&mut Random) -> f64;

const KINDS: [(&str, Kind); 5] = [
    ("any bits", |random| f64::from_bits(random.bits())),
    ("below the normal numbers", |random| f64::from_bits(random.bits() >> 12)),
    ("beside the square of a number", |random| beside(square(0, random), random)),
    ("beside the square of a middle of two", |random| beside(square(1, random), random)),
    ("beside a whole square", |random| beside(((random.bits() >> 38) as f64).powi(2), random)),
];

/// Prints the table; how many roots differ. `root` gives the refusal's number, or 0, and the root, which is +0.0 where it is refused.
pub fn table(seed: u64, count: u64, root: impl Fn(f64) -> (u32, f64)) -> u64 {
    let mut random = Random::new(seed);
    println!("| values | roots | refused | different |\n|---|---|---|---|");
    let mut different = 0;
    for (name, kind) in KINDS {
        different += row(name, (0..count).map(|_| kind(&mut random)), &root);
    }
    let exponents = (0..4096u64).flat_map(|top| [top; 16]);
    different + row("each exponent and sign", exponents.map(|top| f64::from_bits(top << 52 | random.bits() >> 12)), &root)
}

/// One row of the table; how many roots differ.
fn row(name: &str, values: impl Iterator<Item = f64>, root: impl Fn(f64) -> (u32, f64)) -> u64 {
    let (mut roots, mut refused, mut different) = (0u64, 0u64, 0u64);
    for x in values {
        let (number, r) = root(x);
        roots += 1;
        refused += u64::from(number != 0);
        let (expected, machine) = expected(x);
        if (number, r.to_bits()) != (expected, machine.to_bits()) {
            different += 1;
            println!("{:016x}: {number}, {:016x}", x.to_bits(), r.to_bits());
        }
    }
    println!("| {name} | {roots} | {refused} | {different} |");
    different
}

/// The machine's root is that of IEEE 754; where it is a NaN, 01 refuses with 28.
pub fn expected(x: f64) -> (u32, f64) {
    let root = x.sqrt();
    if root.is_nan() {
        (28, 0.0)
    } else {
        (0, root)
    }
}

/// The square of a number of 53 binary digits, or of one a half more, rounded, times a power of four.
fn square(half: u128, random: &mut Random) -> f64 {
    let twice = u128::from(random.bits() >> 11 | 1 << 52) * 2 + half;
    (twice * twice) as f64 * 4f64.powi(random.within(0, 900) as i32 - 500)
}

/// Up to two values away, where the rounding turns.
fn beside(x: f64, random: &mut Random) -> f64 {
    f64::from_bits((x.to_bits() + u64::from(random.below(5))).saturating_sub(2))
}
