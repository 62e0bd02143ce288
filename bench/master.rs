//! The exact path of a master in plain Rust: the rule, the steps and the 64-bit rows of crates/lp_tableaus and
//! crates/lp_fractions, for comparison.
//!
//! Standard input: a master as numbers, separated by blanks: how many rows, and their right sides; how many
//! columns, and how many of these are listed at first (the others are listed one by one where none of those
//! is cheap); for each column its cost, how many entries it has, and the row and the value of each; how many
//! columns are wanted, and their numbers. A copy of crates/search_masters can print them around `solve`.
//!
//! Prints the value and the pivots, and with any word also the greatest number that the path met and the
//! basic columns with their weights.

use std::io::Read;

const MOST: i128 = 1 << 56;
const MOST_COST: i64 = 1 << 39;
const WORD: u128 = u64::MAX as u128;

#[derive(Clone, Copy)]
struct Place {
    row: u32,
    value: i64,
}

struct Column {
    places: Vec<Place>,
    cost: i64,
}

struct Master {
    right: Vec<i64>,
    columns: Vec<Column>,
    listed: usize,
    wanted: Vec<u32>,
}

#[derive(Debug)]
struct TooWide(i128);

fn gcd_words(a: u64, b: u64) -> u64 {
    let (mut x, mut y) = (a, b);
    while y != 0 {
        (x, y) = (y, x % y);
    }
    x
}

fn gcd_unsigned(a: u128, b: u128) -> u128 {
    let (mut x, mut y) = (a, b);
    while y != 0 {
        if x <= WORD && y <= WORD {
            return u128::from(gcd_words(x as u64, y as u64));
        }
        (x, y) = (y, x % y);
    }
    x
}

fn quotient(number: i128, divisor: i128) -> i128 {
    if divisor == 1 {
        return number;
    }
    if let (Ok(number), Ok(divisor)) = (i64::try_from(number), i64::try_from(divisor)) {
        return i128::from(number / divisor);
    }
    number / divisor
}

struct PivotRow {
    numbers: Vec<i64>,
    places: Vec<usize>,
}

impl PivotRow {
    fn set(&mut self, row: &[i64]) {
        self.numbers[..row.len()].copy_from_slice(row);
        self.numbers[row.len()..].fill(0);
        self.places.clear();
        for (place, number) in self.numbers.iter().enumerate() {
            if *number != 0 {
                self.places.push(place);
            }
        }
    }
}

fn combine(factor: i128, number: i64, entry: i128, other: i64) -> i128 {
    factor * i128::from(number) - entry * i128::from(other)
}

fn common_factor(row: &[i64], factor: i128, other: &[i64], entry: i128) -> u128 {
    let mut common = 0;
    for (number, other) in row.iter().zip(other) {
        let number = combine(factor, *number, entry, *other);
        if number != 0 {
            common = gcd_unsigned(number.unsigned_abs(), common);
        }
        if common == 1 {
            return 1;
        }
    }
    common
}

fn divided(number: i128, divisor: i128) -> Result<i64, TooWide> {
    let value = quotient(number, divisor);
    if value < -MOST || value > MOST {
        return Err(TooWide(value));
    }
    Ok(value as i64)
}

fn step_row(row: &mut [i64], factor: i128, pivot: &PivotRow, entry: i128) -> Result<(), TooWide> {
    if entry == 0 {
        return Ok(());
    }
    let shared = gcd_unsigned(factor.unsigned_abs(), entry.unsigned_abs()) as i128;
    let (factor, entry) = (quotient(factor, shared), quotient(entry, shared));
    let common = common_factor(row, factor, &pivot.numbers, entry);
    let divisor = if common == 0 { 1 } else { common as i128 };
    if factor == divisor {
        for place in &pivot.places {
            if *place >= row.len() {
                break;
            }
            let number = combine(factor, row[*place], entry, pivot.numbers[*place]);
            row[*place] = divided(number, factor)?;
        }
        return Ok(());
    }
    for (number, other) in row.iter_mut().zip(&pivot.numbers) {
        *number = divided(combine(factor, *number, entry, *other), divisor)?;
    }
    Ok(())
}

fn entry_in(row: &[i64], places: &[Place]) -> i128 {
    let mut sum = 0;
    for place in places {
        sum += i128::from(row[place.row as usize] * place.value);
    }
    sum
}

fn reduced_cost(prices: &[i64], rows: usize, places: &[Place], cost: i64) -> i128 {
    i128::from(prices[rows + 1]) * i128::from(cost) - entry_in(prices, places)
}

/// The rows, each with its right side behind it; the prices with the value and their denominator behind them;
/// the basic column of each row, and whether it is wanted.
struct Tableau {
    rows: Vec<Vec<i64>>,
    cost: Vec<i64>,
    basis: Vec<usize>,
    wanted: Vec<bool>,
    entries: Vec<i128>,
    prices: Vec<i128>,
    pivot: PivotRow,
}

#[derive(Clone, Copy)]
struct Candidate {
    column: usize,
    reduced: i128,
    length: usize,
}

impl Candidate {
    fn is_as_low(&self, other: &Candidate) -> bool {
        match (
            self.reduced.checked_mul(other.length as i128),
            other.reduced.checked_mul(self.length as i128),
        ) {
            (Some(one), Some(two)) => one <= two,
            _ => true,
        }
    }
}

impl Master {
    fn read(text: &str) -> Master {
        let mut numbers = text
            .split_ascii_whitespace()
            .map(|word| word.parse::<i64>().unwrap());
        let mut next = || numbers.next().unwrap();
        let rows = next() as usize;
        let right = (0..rows).map(|_| next()).collect();
        let count = next() as usize;
        let listed = next() as usize;
        let mut columns = Vec::with_capacity(count);
        for _ in 0..count {
            let cost = next();
            let length = next() as usize;
            let mut places = Vec::with_capacity(length);
            for _ in 0..length {
                let row = next() as u32;
                places.push(Place { row, value: next() });
            }
            columns.push(Column { places, cost });
        }
        let wanted = next() as usize;
        let wanted = (0..wanted).map(|_| next() as u32).collect();
        Master {
            right,
            columns,
            listed,
            wanted,
        }
    }

    fn start(&self) -> Tableau {
        let count = self.right.len();
        let mut rows = Vec::with_capacity(count);
        for row in 0..count {
            let mut line = vec![0; count + 1];
            line[row] = 1;
            line[count] = self.right[row];
            rows.push(line);
        }
        let mut cost = Vec::with_capacity(count + 2);
        let mut value = 0i128;
        for row in 0..count {
            cost.push(self.columns[row].cost);
            value += i128::from(self.right[row]) * i128::from(self.columns[row].cost);
        }
        assert!(value <= MOST);
        cost.push(value as i64);
        cost.push(1);
        Tableau {
            rows,
            cost,
            basis: (0..count).collect(),
            wanted: (0..count).map(|row| self.is_wanted(row)).collect(),
            entries: vec![0; count],
            prices: vec![0; count],
            pivot: PivotRow {
                numbers: vec![0; count + 2],
                places: Vec::with_capacity(count + 2),
            },
        }
    }

    fn is_wanted(&self, column: usize) -> bool {
        self.wanted.iter().any(|number| *number as usize == column)
    }

    /// Returns the wanted column of the most negative reduced cost an entry.
    fn steepest(&self, prices: &[i64]) -> Option<usize> {
        let mut best: Option<Candidate> = None;
        for number in &self.wanted {
            let column = *number as usize;
            let Column { places, cost } = &self.columns[column];
            let units = places.iter().all(|place| place.value.unsigned_abs() <= 1);
            if *cost < 0 || *cost > MOST_COST || !units {
                continue;
            }
            let reduced = reduced_cost(prices, self.right.len(), places, *cost);
            if reduced >= 0 {
                continue;
            }
            let next = Candidate {
                column,
                reduced,
                length: places.len(),
            };
            best = match best {
                Some(least) if least.is_as_low(&next) => Some(least),
                _ => Some(next),
            };
        }
        best.map(|least| least.column)
    }

    /// Returns the listed column of the least reduced cost where that is negative.
    fn find_cheaper(&self, y: &[i128], kappa: i128) -> Option<usize> {
        let mut least = 0;
        let mut found = None;
        for (column, one) in self.columns[..self.listed].iter().enumerate() {
            let mut worth = 0;
            for place in &one.places {
                let price = y[place.row as usize];
                worth += match place.value {
                    1 => price,
                    -1 => -price,
                    _ => 0,
                };
            }
            let reduced = kappa * i128::from(one.cost) - worth;
            if reduced < least {
                least = reduced;
                found = Some(column);
            }
        }
        found
    }

    fn entering(&mut self, tableau: &mut Tableau) -> Option<usize> {
        if let Some(column) = self.steepest(&tableau.cost) {
            return Some(column);
        }
        let count = self.right.len();
        for (price, number) in tableau.prices.iter_mut().zip(&tableau.cost) {
            *price = i128::from(*number);
        }
        let kappa = i128::from(tableau.cost[count + 1]);
        if let Some(column) = self.find_cheaper(&tableau.prices, kappa) {
            return Some(column);
        }
        if self.listed < self.columns.len() {
            self.listed += 1;
            return Some(self.listed - 1);
        }
        None
    }
}

impl Tableau {
    fn leaving(&self) -> usize {
        let right = self.rows.len();
        let mut best: Option<usize> = None;
        for row in 0..self.rows.len() {
            let entry = self.entries[row];
            if entry <= 0 {
                continue;
            }
            let Some(least) = best else {
                best = Some(row);
                continue;
            };
            let other = self.entries[least];
            let low = i128::from(self.rows[row][right]) * other;
            let high = i128::from(self.rows[least][right]) * entry;
            let is_better = if self.wanted[row] == self.wanted[least] {
                entry > other
            } else {
                self.wanted[least]
            };
            if low < high || (low == high && is_better) {
                best = Some(row);
            }
        }
        best.expect("a row leaves")
    }

    fn turn(
        &mut self,
        column: usize,
        is_wanted: bool,
        places: &[Place],
        reduced: i128,
    ) -> Result<(), TooWide> {
        for row in 0..self.rows.len() {
            self.entries[row] = entry_in(&self.rows[row], places);
        }
        let leaving = self.leaving();
        self.pivot.set(&self.rows[leaving]);
        let factor = self.entries[leaving];
        for row in 0..self.rows.len() {
            if row != leaving {
                step_row(&mut self.rows[row], factor, &self.pivot, self.entries[row])?;
            }
        }
        step_row(&mut self.cost, factor, &self.pivot, -reduced)?;
        self.basis[leaving] = column;
        self.wanted[leaving] = is_wanted;
        Ok(())
    }

    fn widest(&self) -> u64 {
        let numbers = self.rows.iter().flatten().chain(&self.cost);
        numbers
            .map(|number| number.unsigned_abs())
            .max()
            .unwrap_or(0)
    }
}

/// How a path ended: the value over its denominator, the basic columns with their weights, the pivots.
struct End {
    value: (i128, i128),
    basic: Vec<(usize, i128, i128)>,
    pivots: usize,
    widest: u64,
}

fn reduced_fraction(num: i128, den: i128) -> (i128, i128) {
    let common = gcd_unsigned(num.unsigned_abs(), den.unsigned_abs()) as i128;
    (num / common, den / common)
}

#[inline(never)]
fn solve(master: &mut Master, looks: bool) -> Result<End, TooWide> {
    let count = master.right.len();
    let mut tableau = master.start();
    let mut pivots = 0;
    let mut widest = 0;
    while let Some(column) = master.entering(&mut tableau) {
        let Column { places, cost } = &master.columns[column];
        let reduced = reduced_cost(&tableau.cost, count, places, *cost);
        let is_wanted = master.is_wanted(column);
        tableau.turn(column, is_wanted, places, reduced)?;
        pivots += 1;
        if looks {
            widest = widest.max(tableau.widest());
        }
    }
    let mut basic = Vec::new();
    for row in (0..count).rev() {
        let column = tableau.basis[row];
        let entry = entry_in(&tableau.rows[row], &master.columns[column].places);
        let (num, den) = reduced_fraction(i128::from(tableau.rows[row][count]), entry);
        basic.push((column, num, den));
    }
    let value = reduced_fraction(
        i128::from(tableau.cost[count]),
        i128::from(tableau.cost[count + 1]),
    );
    Ok(End {
        value,
        basic,
        pivots,
        widest,
    })
}

fn main() {
    let mut text = String::new();
    std::io::stdin().read_to_string(&mut text).unwrap();
    let looks = std::env::args().len() > 1;
    let mut master = Master::read(&text);
    match solve(&mut master, looks) {
        Ok(End {
            value: (num, den),
            basic,
            pivots,
            widest,
        }) => {
            println!("value {num}/{den} pivots {pivots} listed {}", master.listed);
            if looks {
                println!(
                    "widest {widest} bits {}",
                    u64::BITS - widest.leading_zeros()
                );
                for (column, num, den) in basic {
                    println!("{column} {num}/{den}");
                }
            }
        }
        Err(TooWide(number)) => println!("too wide: {number}"),
    }
}
