// The fill of a table of least sums in plain Rust, in the form that the program had before sums were
// added as numbers: each split point of each suffix asks for both sums, none or some, and then for the
// price of the arc. Cells are read without a check, all else with those of Rust.
// Words: RULES TIMES. Prints the least sum of a day's trees under the prices of the last fill, those of
// the fills of crates/bench_runs.
#[path = "grammar.rs"]
mod grammar;

use grammar::{Grammar, Layout, Rule, Slot, Sym, read};

#[derive(Clone, Copy)]
struct Span {
    start: u8,
    len: u8,
}

struct Suffix {
    rule: usize,
    from: usize,
}

struct ArcKey {
    _rule: usize,
    _suffix: usize,
    _span: Span,
    _part: u8,
}

struct Prices {
    fill: u64,
}

impl Prices {
    fn price(&self, number: usize) -> i128 {
        i128::from((self.fill * 7 + number as u64) % 100)
    }

    fn letter(&self, code: u8, period: u8) -> Option<i128> {
        Some(self.price(code as usize * 31 + period as usize * 17))
    }

    fn rule(&self, rule: usize) -> i128 {
        self.price((rule + 1) * 13)
    }

    fn arc(&self, _: &ArcKey) -> i128 {
        0
    }
}

fn add(a: Option<i128>, b: Option<i128>) -> Option<i128> {
    Some(a? + b?)
}

fn lesser(best: Option<i128>, sum: Option<i128>) -> Option<i128> {
    match (best, sum) {
        (_, None) => best,
        (Some(x), Some(y)) if x <= y => best,
        _ => sum,
    }
}

// The first of some periods from one on and before an end, or the end.
fn first_in(periods: u128, begin: u8, end: u8) -> u8 {
    let later = periods >> begin;
    if later == 0 {
        return end;
    }
    (begin + later.trailing_zeros() as u8).min(end)
}

struct Table<'a> {
    grammar: &'a Grammar,
    codes: &'a [u8],
    layout: Layout,
    cells: Vec<i128>,
    ends: Vec<u128>,
    starts: Vec<u128>,
}

impl Table<'_> {
    fn sum_at(&self, slot: usize, span: Span) -> Option<i128> {
        let (n, l) = (self.grammar.periods as usize, span.len as usize - 1);
        let place = l * (2 * n + 1 - l) / 2 + (span.start as usize - 1);
        // (without a check, as a proved program reads it)
        let sum = unsafe { *self.cells.get_unchecked(place * self.layout.slots.len() + slot) };
        if sum == i128::MAX { None } else { Some(sum) }
    }

    fn spot(&self, slot: usize, period: u8) -> usize {
        period as usize * self.layout.slots.len() + slot
    }

    fn symbol_least(&self, prices: &Prices, symbol: Sym, span: Span) -> Option<i128> {
        match symbol {
            Sym::Code(_) if span.len > 1 => None,
            Sym::Code(byte) => prices.letter(self.codes[byte as usize], span.start),
            Sym::Name(name) => self.sum_at(self.layout.names[name], span),
        }
    }

    fn rest_least(&self, prices: &Prices, rule: &Rule, suffix: &Suffix, span: Span) -> Option<i128> {
        if suffix.from + 1 == rule.right.len() {
            self.symbol_least(prices, rule.right[suffix.from], span)
        } else {
            self.sum_at(self.layout.suffixes[suffix.rule] + (suffix.from - 1), span)
        }
    }

    fn symbol_ends(&self, symbol: Sym, start: u8) -> u128 {
        match symbol {
            Sym::Code(_) => 1 << (start + 1),
            Sym::Name(name) => self.ends[self.spot(self.layout.names[name], start)],
        }
    }

    fn rest_starts(&self, rule: &Rule, suffix: &Suffix, end: u8) -> u128 {
        if suffix.from + 1 < rule.right.len() {
            return self.starts[self.spot(self.layout.suffixes[suffix.rule] + (suffix.from - 1), end)];
        }
        match rule.right[suffix.from] {
            Sym::Code(_) => 1 << (end - 1),
            Sym::Name(name) => self.starts[self.spot(self.layout.names[name], end)],
        }
    }

    fn part_least(&self, prices: &Prices, rule: &Rule, suffix: &Suffix, span: Span, part: u8) -> Option<i128> {
        let first = Span { start: span.start, len: part };
        let others = Span { start: span.start + part, len: span.len - part };
        let next = Suffix { rule: suffix.rule, from: suffix.from + 1 };
        let head = self.symbol_least(prices, rule.right[suffix.from], first);
        let tail = self.rest_least(prices, rule, &next, others);
        if head.is_none() || tail.is_none() {
            return None;
        }
        let arc = prices.arc(&ArcKey { _rule: suffix.rule, _suffix: suffix.from, _span: span, _part: part });
        add(head, add(Some(arc), tail))
    }

    fn least_part(&self, prices: &Prices, rule: &Rule, suffix: &Suffix, span: Span) -> Option<i128> {
        let end = span.start + span.len;
        let next = Suffix { rule: suffix.rule, from: suffix.from + 1 };
        let points = self.symbol_ends(rule.right[suffix.from], span.start) & self.rest_starts(rule, &next, end);
        let mut best = None;
        let mut point = first_in(points, span.start + 1, end);
        while point < end {
            best = lesser(best, self.part_least(prices, rule, suffix, span, point - span.start));
            point = first_in(points, point + 1, end);
        }
        best
    }

    fn rule_least(&self, prices: &Prices, number: usize, span: Span) -> Option<i128> {
        let rule = &self.grammar.rules[number];
        let [len, first, last] = rule.windows;
        let end = span.start + span.len - 1;
        let inside = |window: (u8, u8), value: u8| window.0 <= value && value <= window.1;
        if !(inside(len, span.len) && inside(first, span.start) && inside(last, end)) {
            return None;
        }
        let parts = match rule.right[..] {
            [only] => self.symbol_least(prices, only, span),
            _ => self.least_part(prices, rule, &Suffix { rule: number, from: 0 }, span),
        };
        add(Some(prices.rule(number)), parts)
    }

    fn slot_least(&self, prices: &Prices, slot: Slot, span: Span) -> Option<i128> {
        match slot {
            Slot::OfName(name) => self.layout.rules[name]
                .iter()
                .fold(None, |best, rule| lesser(best, self.rule_least(prices, *rule, span))),
            Slot::OfSuffix(rule, from) => {
                self.least_part(prices, &self.grammar.rules[rule], &Suffix { rule, from }, span)
            }
        }
    }

    fn fill(&mut self, prices: &Prices) {
        self.ends.fill(0);
        self.starts.fill(0);
        let mut cell = 0;
        for len in 1..=self.grammar.periods {
            for start in 1..=self.grammar.periods + 1 - len {
                for slot in 0..self.layout.slots.len() {
                    let sum = self.slot_least(prices, self.layout.slots[slot], Span { start, len });
                    self.cells[cell] = sum.unwrap_or(i128::MAX);
                    if sum.is_some() {
                        let (from, to) = (self.spot(slot, start), self.spot(slot, start + len));
                        self.ends[from] |= 1 << (start + len);
                        self.starts[to] |= 1 << start;
                    }
                    cell += 1;
                }
            }
        }
    }
}

fn main() {
    let args: Vec<String> = std::env::args().collect();
    let text = std::fs::read_to_string(&args[1]).unwrap();
    let times: u64 = args[2].parse().unwrap();
    let grammar = read(&text);
    // the codes by the lines that name them
    let named = |line: &str| ["work", "idle"].contains(&line.split(' ').next().unwrap());
    let words = text.lines().filter(|line| named(line)).flat_map(|line| line.split(' ').skip(1));
    let mut codes = vec![0; 256];
    for (number, word) in words.enumerate() {
        codes[word.as_bytes()[0] as usize] = number as u8;
    }
    let layout = Layout::new(&grammar);
    let n = grammar.periods as usize;
    let cells = vec![i128::MAX; n * (n + 1) / 2 * layout.slots.len()];
    let ends = vec![0; (n + 2) * layout.slots.len()];
    let starts = ends.clone();
    let mut table = Table { grammar: &grammar, codes: &codes, layout, cells, ends, starts };
    for fill in 1..=times {
        table.fill(&Prices { fill });
    }
    let day = Span { start: 1, len: grammar.periods };
    match table.sum_at(table.layout.names[grammar.start], day) {
        Some(sum) => println!("{sum}"),
        None => println!("none"),
    }
}
