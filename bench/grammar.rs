// A grammar from a rules text, and the slots of its table, for the programs in plain Rust.
use std::collections::HashMap;

/// A symbol of a right side.
#[derive(Clone, Copy)]
pub enum Sym {
    Code(u8),
    Name(usize),
}

/// A rule, with its windows of length, begin and end.
pub struct Rule {
    pub left: usize,
    #[allow(dead_code)]
    pub cost: i128,
    pub right: Vec<Sym>,
    pub windows: [(u8, u8); 3],
}

/// The grammar of a rules text.
pub struct Grammar {
    pub periods: u8,
    pub names: Vec<String>,
    pub rules: Vec<Rule>,
    pub start: usize,
}

fn number(names: &mut Vec<String>, known: &mut HashMap<String, usize>, name: &str) -> usize {
    *known.entry(name.to_string()).or_insert_with(|| {
        names.push(name.to_string());
        names.len() - 1
    })
}

/// Reads a rules text that is known to be well formed.
pub fn read(text: &str) -> Grammar {
    let (mut periods, mut start) = (0, String::new());
    let (mut names, mut known, mut rules) = (Vec::new(), HashMap::new(), Vec::new());
    for line in text.lines() {
        let line = line.split('#').next().unwrap();
        let words: Vec<&str> = line.split_whitespace().collect();
        match words.as_slice() {
            ["periods", n] => periods = n.parse().unwrap(),
            ["start", name] => start = name.to_string(),
            ["rule", left, cost, "=", rest @ ..] => {
                let left = number(&mut names, &mut known, left);
                let split = rest
                    .iter()
                    .position(|w| ["len", "begin", "end"].contains(w))
                    .unwrap_or(rest.len());
                let right = rest[..split]
                    .iter()
                    .map(|w| match w.as_bytes() {
                        [b'\'', byte, b'\''] => Sym::Code(*byte),
                        _ => Sym::Name(number(&mut names, &mut known, w)),
                    })
                    .collect();
                let mut windows = [(1, 96); 3];
                for w in rest[split..].chunks(3) {
                    let place = ["len", "begin", "end"].iter().position(|x| *x == w[0]).unwrap();
                    windows[place] = (w[1].parse().unwrap(), w[2].parse().unwrap());
                }
                rules.push(Rule { left, cost: cost.parse().unwrap(), right, windows });
            }
            _ => {}
        }
    }
    let start = known[&start];
    Grammar { periods, names, rules, start }
}

// The names, a one-symbol rule's right name before its left one.
fn order(grammar: &Grammar) -> Vec<usize> {
    let count = grammar.names.len();
    let mut rank = vec![0; count];
    for _ in 0..count {
        for rule in &grammar.rules {
            if let [Sym::Name(right)] = rule.right[..] {
                rank[right] = rank[right].max(rank[rule.left] + 1);
            }
        }
    }
    let mut names: Vec<usize> = (0..count).collect();
    names.sort_by_key(|name| usize::MAX - rank[*name]);
    names
}

/// What a slot of a table holds the sums of.
#[derive(Clone, Copy)]
pub enum Slot {
    OfName(usize),
    OfSuffix(usize, usize),
}

/// The slots of a grammar's table: the slot of each name, and the first one of each rule's suffixes.
pub struct Layout {
    pub slots: Vec<Slot>,
    pub names: Vec<usize>,
    pub suffixes: Vec<usize>,
    pub rules: Vec<Vec<usize>>,
}

impl Layout {
    pub fn new(grammar: &Grammar) -> Layout {
        let (mut slots, mut suffixes) = (Vec::new(), Vec::new());
        for (number, rule) in grammar.rules.iter().enumerate() {
            suffixes.push(slots.len());
            for from in 1..rule.right.len().saturating_sub(1) {
                slots.push(Slot::OfSuffix(number, from));
            }
        }
        let mut names = vec![0; grammar.names.len()];
        for name in order(grammar) {
            names[name] = slots.len();
            slots.push(Slot::OfName(name));
        }
        let rules = (0..grammar.names.len())
            .map(|name| (0..grammar.rules.len()).filter(|rule| grammar.rules[*rule].left == name).collect())
            .collect();
        Layout { slots, names, suffixes, rules }
    }
}
