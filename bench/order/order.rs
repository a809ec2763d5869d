// The loop of crates/bench_order in plain Rust: the same facts as rows of bits, closed at each assumption.
use std::time::Instant;

const TERMS: usize = 24;
const ROUNDS: u32 = 100_000;
const RANDOM_ASSUMPTIONS: u32 = 40;

#[derive(Clone, Copy)]
struct Preorder {
    at_most: [u32; TERMS],
    less: [u32; TERMS],
    terms: usize,
}

struct Clash;

fn has(rows: &[u32; TERMS], a: usize, b: usize) -> bool {
    rows[a] & (1 << b) != 0
}

fn extend(rows: &mut [u32; TERMS], through: &[u32; TERMS], a: usize, more: u32) {
    for (row, through) in rows.iter_mut().zip(through) {
        if through & (1 << a) != 0 {
            *row |= more;
        }
    }
}

impl Preorder {
    fn new(terms: usize) -> Preorder {
        let mut at_most = [0; TERMS];
        for (x, row) in at_most.iter_mut().enumerate() {
            *row = 1 << x;
        }
        Preorder { at_most, less: [0; TERMS], terms }
    }

    fn assume_less(&mut self, a: usize, b: usize) -> Result<(), Clash> {
        if has(&self.at_most, b, a) {
            return Err(Clash);
        }
        let at_most = self.at_most;
        let above = at_most[b];
        extend(&mut self.less, &at_most, a, above);
        extend(&mut self.at_most, &at_most, a, above);
        Ok(())
    }

    fn assume_at_most(&mut self, a: usize, b: usize) -> Result<(), Clash> {
        if has(&self.less, b, a) {
            return Err(Clash);
        }
        let (at_most, less) = (self.at_most, self.less);
        extend(&mut self.less, &at_most, a, less[b]);
        extend(&mut self.less, &less, a, at_most[b]);
        extend(&mut self.at_most, &at_most, a, at_most[b]);
        Ok(())
    }

    fn is_total(&self) -> bool {
        (0..self.terms).all(|a| (0..self.terms).all(|b| has(&self.at_most, a, b) || has(&self.less, b, a)))
    }
}

struct Random(u64);

impl Random {
    fn below(&mut self, n: usize) -> usize {
        self.0 ^= self.0 << 13;
        self.0 ^= self.0 >> 7;
        self.0 ^= self.0 << 17;
        (self.0 % n as u64) as usize
    }
}

fn main() {
    let timed = std::env::args().any(|word| word == "times");
    let started = Instant::now();
    let mut random = Random(88_172_645_463_325_252);
    let (mut totals, mut ends, mut clashes) = (0, 0, 0);
    for _ in 0..ROUNDS {
        let mut order = Preorder::new(TERMS);
        let mut clashed = false;
        for _ in 0..RANDOM_ASSUMPTIONS {
            let a = random.below(TERMS);
            let b = random.below(TERMS);
            clashed |= if a < b { order.assume_less(a, b) } else { order.assume_at_most(b, a) }.is_err();
        }
        ends += has(&order.less, 0, TERMS - 1) as u32;
        for link in 1..TERMS {
            clashed |= order.assume_less(link - 1, link).is_err();
        }
        totals += order.is_total() as u32;
        clashes += clashed as u32;
    }
    let nanoseconds = started.elapsed().as_nanos();
    println!("{ROUNDS} chains: {totals} total, ends known early in {ends}, {clashes} clashes");
    if timed {
        let assumptions = u128::from(ROUNDS * (RANDOM_ASSUMPTIONS + TERMS as u32 - 1));
        println!("{} nanoseconds an assumption", nanoseconds / assumptions);
    }
}
