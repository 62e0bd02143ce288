//! The row step of crates/lp_fractions in plain Rust, for the comparison of bench/row_step.py: the same
//! functions, and the same program around them as in crates/bench_runs.

const WORD: u128 = u64::MAX as u128;

#[derive(Debug)]
pub struct TooWide {
    pub p: i128,
    pub r: i128,
    pub a: i128,
    pub s: i128,
}

pub struct Tally {
    wide: u64,
}

impl Tally {
    pub fn refuse(&mut self) {
        self.wide = self.wide.saturating_add(1);
    }
}

fn gcd_words(a: u64, b: u64) -> u64 {
    let mut x = a;
    let mut y = b;
    while y != 0 {
        let rest = x % y;
        x = y;
        y = rest;
    }
    x
}

pub fn gcd_unsigned(a: u128, b: u128) -> u128 {
    let mut x = a;
    let mut y = b;
    while y != 0 {
        if x <= WORD && y <= WORD {
            return u128::from(gcd_words(x as u64, y as u64));
        }
        let rest = x % y;
        x = y;
        y = rest;
    }
    x
}

fn product_of_words(a: i64, b: i64) -> i128 {
    i128::from(a) * i128::from(b)
}

fn quotient_of_words(value: i64, divisor: i64) -> i128 {
    i128::from(value / divisor)
}

fn within(value: i128) -> Option<i128> {
    if value == i128::MIN { None } else { Some(value) }
}

pub fn product_in(a: i128, b: i128) -> Option<i128> {
    if let (Ok(a), Ok(b)) = (i64::try_from(a), i64::try_from(b)) {
        return Some(product_of_words(a, b));
    }
    let product = a.checked_mul(b)?;
    within(product)
}

pub fn difference_in(a: i128, b: i128) -> Option<i128> {
    let difference = a.checked_sub(b)?;
    within(difference)
}

pub fn quotient(value: i128, divisor: i128) -> i128 {
    if let (Ok(value), Ok(divisor)) = (i64::try_from(value), i64::try_from(divisor)) {
        quotient_of_words(value, divisor)
    } else {
        value / divisor
    }
}

fn combine(p: i128, r: i128, a: i128, s: i128) -> Option<i128> {
    let first = product_in(p, r)?;
    let second = product_in(a, s)?;
    difference_in(first, second)
}

fn next_factor(factor: u128, entry: i128) -> u128 {
    if factor == 1 {
        1
    } else {
        gcd_unsigned(entry.unsigned_abs(), factor)
    }
}

fn new_entry(p: i128, r: i128, a: i128, s: i128, g: i128) -> i128 {
    let entry = p * r - a * s;
    if g == 1 { entry } else { quotient(entry, g) }
}

fn common_factor(row: &[i128], p: i128, other: &[i128], a: i128) -> Result<u128, usize> {
    let mut factor = 0;
    for j in 0..row.len() {
        match combine(p, row[j], a, other[j]) {
            Some(entry) => {
                factor = next_factor(factor, entry);
            }
            None => return Err(j),
        }
    }
    Ok(factor)
}

fn divide_all(row: &mut [i128], p: i128, other: &[i128], a: i128, g: i128) {
    for j in 0..row.len() {
        row[j] = new_entry(p, row[j], a, other[j], g);
    }
}

fn divisor_of(factor: u128) -> i128 {
    if factor == 0 { 1 } else { factor as i128 }
}

#[inline(never)]
pub fn row_step(
    row: &mut [i128],
    p: i128,
    other: &[i128],
    a: i128,
    tally: &mut Tally,
) -> Result<i128, TooWide> {
    match common_factor(row, p, other, a) {
        Ok(factor) => {
            let g = divisor_of(factor);
            divide_all(row, p, other, a, g);
            Ok(g)
        }
        Err(j) => {
            tally.refuse();
            Err(TooWide {
                p,
                r: row[j],
                a,
                s: other[j],
            })
        }
    }
}

fn fill(row: &mut [i128], seed: u64, factor: i128) {
    let mut state = seed;
    for entry in row.iter_mut() {
        state = state
            .wrapping_mul(6364136223846793005)
            .wrapping_add(1442695040888963407);
        *entry = (i128::from((state >> 33) % 1000) - 500).wrapping_mul(factor);
    }
}

fn checksum(row: &mut [i128], first: &[i128], other: &[i128], steps: u64) -> i128 {
    let mut tally = Tally { wide: 0 };
    let mut sum = 0i128;
    for step in 0..steps {
        row.copy_from_slice(first);
        if let Ok(factor) = row_step(row, 7 + i128::from(step % 3), other, 5, &mut tally) {
            sum = sum.wrapping_add(factor);
        }
        if let Some(entry) = row.first() {
            sum = sum.wrapping_add(*entry);
        }
    }
    sum
}

fn number(word: Option<String>, usual: u64) -> u64 {
    word.and_then(|word| word.parse().ok()).unwrap_or(usual)
}

fn main() {
    let mut words = std::env::args().skip(1);
    let width = number(words.next(), 5) as usize;
    let steps = number(words.next(), 3);
    let factor = i128::from(number(words.next(), 6));
    let mut first = vec![0i128; width];
    let mut other = vec![0i128; width];
    let mut row = vec![0i128; width];
    fill(&mut first, 1, factor);
    fill(&mut other, 2, factor);
    println!("{}", checksum(&mut row, &first, &other, steps));
}
