// The sine enclosures of `trig_series` in plain Rust: the same arithmetic, without a proof.
// Prints a sum over the results, which is that of `kernel_bench series COUNT`.

#[derive(Clone, Copy)]
struct Interval {
    lo: i128,
    hi: i128,
}

const EIGHTH_TURN: i128 = 6_480_000_000_000;
const QUARTER_TURN: i128 = 12_960_000_000_000;
const HALF_TURN: i128 = 25_920_000_000_000;
const ONE: u64 = 1 << 56;
const PI: Interval = Interval { lo: 226_375_608_064_910_088, hi: 226_375_608_064_910_089 };

fn ceil_div(value: i128, n: i128) -> i128 {
    -((-value).div_euclid(n))
}

fn corner_products(a: Interval, b: Interval) -> (i128, i128) {
    let corners = [a.lo * b.lo, a.lo * b.hi, a.hi * b.lo, a.hi * b.hi];
    let least = corners[0].min(corners[1]).min(corners[2].min(corners[3]));
    let greatest = corners[0].max(corners[1]).max(corners[2].max(corners[3]));
    (least, greatest)
}

impl Interval {
    fn product(self, other: Interval) -> Interval {
        let (least, greatest) = corner_products(self, other);
        Interval { lo: least >> 56, hi: -(-greatest >> 56) }
    }

    fn times_ratio(self, low: i128, high: i128, n: i128) -> Interval {
        let (least, greatest) = corner_products(self, Interval { lo: low, hi: high });
        Interval { lo: least.div_euclid(n), hi: ceil_div(greatest, n) }
    }

    fn divide_by(self, n: u64) -> Interval {
        Interval { lo: self.lo.div_euclid(i128::from(n)), hi: ceil_div(self.hi, i128::from(n)) }
    }

    fn sum(self, other: Interval) -> Interval {
        Interval { lo: self.lo + other.lo, hi: self.hi + other.hi }
    }

    fn hull(self, other: Interval) -> Interval {
        Interval { lo: self.lo.min(other.lo), hi: self.hi.max(other.hi) }
    }

    fn negated(self) -> Interval {
        Interval { lo: -self.hi, hi: -self.lo }
    }
}

const TERMS: u64 = 12;

fn margin(next: Interval) -> Interval {
    let more = 2 * next.hi.max(-next.lo);
    Interval { lo: -more, hi: more }
}

fn series(first: Interval, square: Interval, power: u64) -> Interval {
    let mut term = first;
    let mut total = Interval { lo: 0, hi: 0 };
    for j in 0..TERMS {
        total = total.sum(term);
        term = term.product(square).divide_by((2 * j + power + 1) * (2 * j + power + 2)).negated();
    }
    total.sum(margin(term))
}

#[derive(Clone, Copy)]
struct Magnitudes {
    least: u64,
    greatest: u64,
}

impl Magnitudes {
    fn of(x: Interval) -> Magnitudes {
        Magnitudes { least: x.lo as u64, greatest: x.hi as u64 }
    }

    fn interval(self) -> Interval {
        Interval { lo: i128::from(self.least), hi: i128::from(self.greatest) }
    }

    fn product(self, other: Magnitudes) -> Magnitudes {
        let least = u128::from(self.least) * u128::from(other.least);
        let greatest = u128::from(self.greatest) * u128::from(other.greatest);
        Magnitudes { least: (least >> 56) as u64, greatest: greatest.div_ceil(1 << 56) as u64 }
    }

    fn divide_by(self, n: u64) -> Magnitudes {
        Magnitudes { least: self.least / n, greatest: self.greatest.div_ceil(n) }
    }

    fn next_term(self, square: Magnitudes, power: u64) -> Magnitudes {
        self.product(square).divide_by((power + 1) * (power + 2))
    }
}

fn alternating_series(first: Magnitudes, square: Magnitudes, power: u64) -> Interval {
    let mut added = first;
    let mut total = Interval { lo: 0, hi: 0 };
    for pair in 0..TERMS / 2 {
        let taken = added.next_term(square, 4 * pair + power);
        total = total.sum(added.interval()).sum(taken.interval().negated());
        added = taken.next_term(square, 4 * pair + power + 2);
    }
    total.sum(margin(added.interval()))
}

fn sine_of_magnitudes(x: Magnitudes) -> Interval {
    alternating_series(x, x.product(x), 1)
}

fn cosine_of_magnitudes(x: Magnitudes) -> Interval {
    alternating_series(Magnitudes { least: ONE, greatest: ONE }, x.product(x), 0)
}

fn sine_of_radians(x: Interval) -> Interval {
    if 0 <= x.lo {
        sine_of_magnitudes(Magnitudes::of(x))
    } else if x.hi <= 0 {
        sine_of_magnitudes(Magnitudes::of(x.negated())).negated()
    } else {
        series(x, x.product(x), 1)
    }
}

fn cosine_of_radians(x: Interval) -> Interval {
    if 0 <= x.lo {
        cosine_of_magnitudes(Magnitudes::of(x))
    } else if x.hi <= 0 {
        cosine_of_magnitudes(Magnitudes::of(x.negated()))
    } else {
        let one = i128::from(ONE);
        series(Interval { lo: one, hi: one }, x.product(x), 0)
    }
}

fn sine_in_quarter(low: i128, high: i128, quarter: i128) -> Interval {
    let low = (low - QUARTER_TURN * quarter).max(-EIGHTH_TURN);
    let high = (high - QUARTER_TURN * quarter).min(EIGHTH_TURN);
    let x = PI.times_ratio(low, high, HALF_TURN);
    match quarter.rem_euclid(4) {
        0 => sine_of_radians(x),
        1 => cosine_of_radians(x),
        2 => sine_of_radians(x).negated(),
        _ => cosine_of_radians(x).negated(),
    }
}

fn sine(low: i128, high: i128) -> Interval {
    let mut quarter = -((EIGHTH_TURN - low).div_euclid(QUARTER_TURN));
    let last = (high + EIGHTH_TURN).div_euclid(QUARTER_TURN);
    let mut all = sine_in_quarter(low, high, quarter);
    while quarter < last {
        quarter += 1;
        all = all.hull(sine_in_quarter(low, high, quarter));
    }
    all
}

const STEP: u64 = 7_919_000_003;
const CIRCLE: u64 = 51_840_000_000_000;
const WIDTH: i128 = 18_000;

fn main() {
    let count: u64 = std::env::args().nth(2).and_then(|word| word.parse().ok()).expect("a count");
    let mut sum = 0u64;
    for i in 0..count {
        let low = i128::from(i.wrapping_mul(STEP) % CIRCLE);
        let found = sine(low, low + WIDTH);
        sum = sum.wrapping_mul(31).wrapping_add(found.lo as u64).wrapping_add(found.hi as u64);
    }
    println!("{sum}");
}
