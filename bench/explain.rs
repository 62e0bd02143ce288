// The price of a word by a rules text, in plain Rust: the recurrence of the proved table (least sums
// by symbol or suffix and span, bottom up, split only where both parts have sums), with bounds checks
// and panics where Rust has them.
// Words: RULES WORD. Prints the cost, or `no derivation`.
#[path = "grammar.rs"]
mod grammar;

use grammar::{Grammar, Layout, Slot, Sym, read};

const NONE: i128 = i128::MAX;

struct Table<'a> {
    grammar: &'a Grammar,
    word: &'a [u8],
    layout: Layout,
    cells: Vec<i128>,
    ends: Vec<u128>,
    starts: Vec<u128>,
}

fn add(a: i128, b: i128) -> i128 {
    if a == NONE || b == NONE { NONE } else { a + b }
}

impl Table<'_> {
    fn place(&self, start: u8, len: u8) -> usize {
        let (n, l) = (self.grammar.periods as usize, len as usize - 1);
        l * (2 * n + 1 - l) / 2 + (start as usize - 1)
    }

    fn symbol(&self, symbol: Sym, start: u8, len: u8) -> i128 {
        match symbol {
            Sym::Code(byte) => {
                if len == 1 && self.word[start as usize - 1] == byte { 0 } else { NONE }
            }
            Sym::Name(name) => self.cells[self.place(start, len) * self.layout.slots.len() + self.layout.names[name]],
        }
    }

    fn symbol_ends(&self, symbol: Sym, start: u8) -> u128 {
        match symbol {
            Sym::Code(_) => 1 << (start + 1),
            Sym::Name(name) => self.ends[start as usize * self.layout.slots.len() + self.layout.names[name]],
        }
    }

    fn rest_starts(&self, rule: usize, from: usize, end: u8) -> u128 {
        let right = &self.grammar.rules[rule].right;
        let row = end as usize * self.layout.slots.len();
        if from + 1 < right.len() {
            return self.starts[row + self.layout.suffixes[rule] + (from - 1)];
        }
        match right[from] {
            Sym::Code(_) => 1 << (end - 1),
            Sym::Name(name) => self.starts[row + self.layout.names[name]],
        }
    }

    fn rest(&self, rule: usize, from: usize, start: u8, len: u8) -> i128 {
        let right = &self.grammar.rules[rule].right;
        if from + 1 == right.len() {
            self.symbol(right[from], start, len)
        } else {
            let slot = self.layout.suffixes[rule] + (from - 1);
            self.cells[self.place(start, len) * self.layout.slots.len() + slot]
        }
    }

    fn split(&self, rule: usize, from: usize, start: u8, len: u8) -> i128 {
        let symbol = self.grammar.rules[rule].right[from];
        let mut points = self.symbol_ends(symbol, start) & self.rest_starts(rule, from + 1, start + len);
        let mut best = NONE;
        while points != 0 {
            let part = points.trailing_zeros() as u8 - start;
            points &= points - 1;
            let a = self.symbol(symbol, start, part);
            let b = self.rest(rule, from + 1, start + part, len - part);
            let sum = add(a, b);
            if sum < best {
                best = sum;
            }
        }
        best
    }

    fn name(&self, name: usize, start: u8, len: u8) -> i128 {
        let mut best = NONE;
        for &number in &self.layout.rules[name] {
            let rule = &self.grammar.rules[number];
            let [span, first, last] = rule.windows;
            let end = start + len - 1;
            let stands = span.0 <= len
                && len <= span.1
                && first.0 <= start && start <= first.1
                && last.0 <= end && end <= last.1;
            if !stands {
                continue;
            }
            let parts = if rule.right.len() == 1 {
                self.symbol(rule.right[0], start, len)
            } else {
                self.split(number, 0, start, len)
            };
            let sum = add(rule.cost, parts);
            if sum < best {
                best = sum;
            }
        }
        best
    }

    fn fill(&mut self) {
        let mut place = 0;
        for len in 1..=self.grammar.periods {
            for start in 1..=self.grammar.periods + 1 - len {
                for slot in 0..self.layout.slots.len() {
                    let sum = match self.layout.slots[slot] {
                        Slot::OfName(name) => self.name(name, start, len),
                        Slot::OfSuffix(rule, from) => self.split(rule, from, start, len),
                    };
                    let width = self.layout.slots.len();
                    self.cells[place * width + slot] = sum;
                    if sum != NONE {
                        self.ends[start as usize * width + slot] |= 1 << (start + len);
                        self.starts[(start + len) as usize * width + slot] |= 1 << start;
                    }
                }
                place += 1;
            }
        }
    }
}

fn main() {
    let args: Vec<String> = std::env::args().collect();
    let text = std::fs::read_to_string(&args[1]).unwrap();
    let grammar = read(&text);
    let word = args[2].as_bytes();
    let n = grammar.periods as usize;
    if word.len() != n {
        println!("no derivation");
        return;
    }
    let layout = Layout::new(&grammar);
    let cells = vec![NONE; n * (n + 1) / 2 * layout.slots.len()];
    let ends = vec![0; (n + 2) * layout.slots.len()];
    let starts = ends.clone();
    let mut table = Table { grammar: &grammar, word, layout, cells, ends, starts };
    table.fill();
    match table.symbol(Sym::Name(grammar.start), 1, grammar.periods) {
        NONE => println!("no derivation"),
        cost => println!("cost {cost}"),
    }
}
