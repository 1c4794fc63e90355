// The rule of `region` in plain Rust: the same tests in the same order, without a proof.
// Prints a sum over the results, which is that of `kernel_bench KERNEL COUNT`.

/// The place `a / d`, `b / d`, in place units (128 to a microdegree).
#[derive(Clone, Copy)]
struct Point {
    a: i128,
    b: i128,
    d: i128,
}

#[derive(Clone, Copy)]
struct Rect {
    x0: i64,
    x1: i64,
    y0: i64,
    y1: i64,
}

#[derive(Clone, Copy)]
struct Edge {
    xa: i64,
    ya: i64,
    xb: i64,
    yb: i64,
    polygon: u32,
}

fn edge_between(p: (i64, i64), q: (i64, i64), polygon: u32) -> Edge {
    Edge { xa: 128 * p.0, ya: 128 * p.1, xb: 128 * q.0, yb: 128 * q.1, polygon }
}

fn are_below<T: PartialOrd>(u: T, v: T, z: T) -> bool {
    u < z && v < z
}

fn are_above<T: PartialOrd>(u: T, v: T, z: T) -> bool {
    z < u && z < v
}

fn encloses<T: PartialOrd>(u: T, v: T, z: T) -> bool {
    (u <= z && z <= v) || (v <= z && z <= u)
}

fn is_between<T: PartialOrd>(low: T, z: T, high: T) -> bool {
    low <= z && z <= high
}

fn scaled(x: i64, d: i128) -> i128 {
    i128::from(x) * d
}

/// The place is on an edge, and a ray from it to the east crosses an odd number of edges.
#[derive(Clone, Copy)]
struct Touch {
    on: bool,
    odd: bool,
}

const APART: Touch = Touch { on: false, odd: false };

impl Edge {
    fn touch(&self, p: &Point) -> Touch {
        let (ya, yb) = (scaled(self.ya, p.d), scaled(self.yb, p.d));
        if !encloses(ya, yb, p.b) {
            return APART;
        }
        let (xa, xb) = (scaled(self.xa, p.d), scaled(self.xb, p.d));
        if are_below(xa, xb, p.a) {
            return APART;
        }
        let (from_above, to_above) = (p.b < ya, p.b < yb);
        if are_above(xa, xb, p.a) {
            return Touch { on: false, odd: from_above != to_above };
        }
        let rise = i128::from(self.xb - self.xa) * (p.b - ya);
        let run = i128::from(self.yb - self.ya) * (p.a - xa);
        let side = rise - run;
        let crossed = if to_above { !from_above && side > 0 } else { from_above && side < 0 };
        Touch { on: side == 0, odd: crossed }
    }

    fn at_start(&self, r: &Rect) -> Option<Point> {
        let inside = is_between(r.x0, self.xa, r.x1) && is_between(r.y0, self.ya, r.y1);
        inside.then(|| Point { a: i128::from(self.xa), b: i128::from(self.ya), d: 1 })
    }

    fn at_longitude(&self, r: &Rect, x: i64) -> Option<Point> {
        let (b, d) = passing(self.xa, self.xb, self.ya, self.yb, x, r.y0, r.y1)?;
        Some(Point { a: scaled(x, d), b, d })
    }

    fn at_latitude(&self, r: &Rect, y: i64) -> Option<Point> {
        let (a, d) = passing(self.ya, self.yb, self.xa, self.xb, y, r.x0, r.x1)?;
        Some(Point { a, b: scaled(y, d), d })
    }

    fn point_in(&self, r: &Rect) -> Option<Point> {
        if are_below(self.ya, self.yb, r.y0) || are_above(self.ya, self.yb, r.y1) {
            return None;
        }
        if are_below(self.xa, self.xb, r.x0) || are_above(self.xa, self.xb, r.x1) {
            return None;
        }
        self.at_start(r)
            .or_else(|| self.at_longitude(r, r.x0))
            .or_else(|| self.at_longitude(r, r.x1))
            .or_else(|| self.at_latitude(r, r.y0))
            .or_else(|| self.at_latitude(r, r.y1))
    }

    fn reaches(&self, low: i64) -> bool {
        !(are_below(self.ya, self.yb, low) || are_above(self.ya, self.yb, low + i64::from(HEIGHT)))
    }
}

/// Where an edge passes `z` in one coordinate, the other is `value / d`; it counts only from `low` to `high`.
fn passing(u: i64, v: i64, s: i64, t: i64, z: i64, low: i64, high: i64) -> Option<(i128, i128)> {
    if u == v || !encloses(u, v, z) {
        return None;
    }
    let (whole, part) = if u < v { (v - u, z - u) } else { (u - v, u - z) };
    let d = i128::from(whole);
    let value = scaled(s, d) + i128::from(part) * i128::from(t - s);
    is_between(scaled(low, d), value, scaled(high, d)).then_some((value, d))
}

type Ring = Vec<(i64, i64)>;

struct District {
    polygons: Vec<Vec<Ring>>,
}

fn touch_along(ring: &[(i64, i64)], p: &Point) -> Touch {
    ring.windows(2).fold(APART, |seen, pair| {
        let touch = edge_between(pair[0], pair[1], 0).touch(p);
        Touch { on: seen.on || touch.on, odd: seen.odd != touch.odd }
    })
}

fn point_along(ring: &[(i64, i64)], r: &Rect) -> Option<Point> {
    ring.windows(2).find_map(|pair| edge_between(pair[0], pair[1], 0).point_in(r))
}

fn polygon_contains(rings: &[Ring], p: &Point) -> bool {
    let all = rings.iter().fold(APART, |seen, ring| {
        let touch = touch_along(ring, p);
        Touch { on: seen.on || touch.on, odd: seen.odd != touch.odd }
    });
    all.on || all.odd
}

impl District {
    fn contains(&self, p: &Point) -> bool {
        self.polygons.iter().any(|rings| polygon_contains(rings, p))
    }

    fn meets(&self, r: &Rect) -> Option<Point> {
        let met = self.polygons.iter().flatten().find_map(|ring| point_along(ring, r));
        met.or_else(|| self.contains(&corner(r)).then_some(corner(r)))
    }

    fn strips(&self, south: i64) -> Vec<Strip> {
        (0..64).map(|i| self.strip(south + i * i64::from(HEIGHT))).collect()
    }

    fn strip(&self, low: i64) -> Strip {
        let mut edges = Vec::new();
        for (number, rings) in self.polygons.iter().enumerate() {
            for pair in rings.iter().flat_map(|ring| ring.windows(2)) {
                let edge = edge_between(pair[0], pair[1], number as u32);
                if edge.reaches(low) {
                    edges.push(edge);
                }
            }
        }
        let blocks = blocks_of(&edges);
        Strip { edges, blocks }
    }
}

/// So many edges of one polygon that follow each other, and a box round them.
struct Block {
    x: (i64, i64),
    y: (i64, i64),
    polygon: u32,
    count: usize,
}

impl Block {
    fn of_first(edges: &[Edge]) -> Block {
        let polygon = edges[0].polygon;
        let own = || edges.iter().take(16).take_while(|edge| edge.polygon == polygon);
        let x = || own().flat_map(|edge| [edge.xa, edge.xb]);
        let y = || own().flat_map(|edge| [edge.ya, edge.yb]);
        Block {
            x: (x().min().unwrap(), x().max().unwrap()),
            y: (y().min().unwrap(), y().max().unwrap()),
            polygon,
            count: own().count(),
        }
    }

    fn misses_latitudes(&self, r: &Rect) -> bool {
        self.y.1 < r.y0 || r.y1 < self.y.0
    }

    fn misses_longitudes(&self, r: &Rect) -> bool {
        self.x.1 < r.x0 || r.x1 < self.x.0
    }
}

fn blocks_of(edges: &[Edge]) -> Vec<Block> {
    let mut blocks = Vec::new();
    let mut left = edges;
    while !left.is_empty() {
        let block = Block::of_first(left);
        left = &left[block.count..];
        blocks.push(block);
    }
    blocks
}

struct Strip {
    edges: Vec<Edge>,
    blocks: Vec<Block>,
}

impl Strip {
    /// The blocks, each with its edges.
    fn blocks(&self) -> impl Iterator<Item = (&Block, &[Edge])> {
        let mut left = self.edges.as_slice();
        self.blocks.iter().map(move |block| {
            let (own, rest) = left.split_at(block.count);
            left = rest;
            (block, own)
        })
    }

    fn any_around(&self, r: &Rect) -> bool {
        let corner = corner(r);
        let (mut polygon, mut odd) = (0, false);
        for (block, own) in self.blocks() {
            let same = block.polygon == polygon;
            if !same && odd {
                return true;
            }
            let touch = if block.misses_latitudes(r) {
                APART
            } else {
                own.iter().fold(APART, |seen, edge| {
                    let touch = edge.touch(&corner);
                    Touch { on: seen.on || touch.on, odd: seen.odd != touch.odd }
                })
            };
            if touch.on {
                return true;
            }
            odd = if same { odd != touch.odd } else { touch.odd };
            polygon = block.polygon;
        }
        odd
    }

    fn meets(&self, r: &Rect) -> Option<Point> {
        self.blocks()
            .filter(|(block, _)| !block.misses_latitudes(r) && !block.misses_longitudes(r))
            .find_map(|(_, own)| own.iter().find_map(|edge| edge.point_in(r)))
            .or_else(|| self.any_around(r).then_some(corner(r)))
    }
}

fn corner(r: &Rect) -> Point {
    Point { a: i128::from(r.x0), b: i128::from(r.y0), d: 1 }
}

const MIDDLE: (i64, i64) = (39_800_000, 21_400_000);
const WEST: i64 = 128 * 37_702_848;
const SOUTH: i64 = 128 * 19_302_848;
const SIDE: u32 = 536_870_912;
const STRIP: usize = 32;
const LOW: i64 = SOUTH + 32 * 8_388_608;
const HEIGHT: u32 = 8_388_608;
const STEP: u64 = 7_919_000_003;
const PARTS: u32 = 3;

fn wave(k: u32, period: u32) -> u32 {
    (k % period).abs_diff(period / 2)
}

fn reach(k: u32) -> u32 {
    1_500 + 2 * wave(k, 256) + 10 * wave(k, 32) + 21 * wave(k, 10)
}

fn position(k: u32) -> (i64, i64) {
    let (lon, lat) = MIDDLE;
    let reach = i64::from(reach(k));
    let ahead = reach * i64::from(k % 1_024);
    let back = reach * 1_024 - ahead;
    match k / 1_024 {
        0 => (lon + back, lat + ahead),
        1 => (lon - ahead, lat + back),
        2 => (lon - back, lat - ahead),
        _ => (lon + ahead, lat - back),
    }
}

fn district() -> District {
    let ring = (0..4_095).chain([0]).map(position).collect();
    District { polygons: vec![vec![ring]] }
}

fn spread(i: u64, end: u32) -> i64 {
    (i.wrapping_mul(STEP) % u64::from(end)) as i64
}

fn place(i: u64) -> Point {
    let east = i128::from(spread(i, PARTS * SIDE));
    let north = i128::from(spread(i.wrapping_mul(STEP), PARTS * SIDE));
    let parts = i128::from(PARTS);
    Point { a: parts * i128::from(WEST) + east, b: parts * i128::from(SOUTH) + north, d: parts }
}

fn side(i: u64) -> u32 {
    8_192 * (1 + (i % 1_024) as u32)
}

fn box_above(low: i64, i: u64) -> Rect {
    let side = side(i);
    let x = WEST + spread(i, SIDE);
    let y = low + spread(i, HEIGHT - side + 1);
    Rect { x0: x, x1: x + i64::from(side), y0: y, y1: y + i64::from(side) }
}

fn mixed(sum: u64, number: i128) -> u64 {
    sum.wrapping_mul(31).wrapping_add(number as u64)
}

fn with_place(sum: u64, found: Option<Point>) -> u64 {
    match found {
        Some(p) => mixed(mixed(mixed(sum, p.a), p.b), p.d),
        None => mixed(sum, 0),
    }
}

fn main() {
    let words: Vec<String> = std::env::args().skip(1).collect();
    let count: u64 = words[1].parse().expect("a count");
    let district = district();
    let sum = match words[0].as_str() {
        "contains" => (0..count).fold(0, |sum, i| mixed(sum, i128::from(district.contains(&place(i))))),
        "meets" => (0..count).fold(0, |sum, i| with_place(sum, district.meets(&box_above(LOW, i)))),
        "meets_by_strip" => {
            let strips = district.strips(SOUTH);
            let strip = &strips[STRIP];
            (0..count).fold(0, |sum, i| with_place(sum, strip.meets(&box_above(LOW, i))))
        }
        _ => panic!("no such kernel"),
    };
    println!("{sum}");
}
