//! Counts the visits of the chain search on nasty and on ordinary records.
//!
//! This is a counting copy, in plain Rust, of the search in crates/paths (same order, same layers, same
//! memory of failed searches), since a counter in the proved code would be part of its contracts.
//! Build and run: rustc -O bench/visits.rs -o target/visits && target/visits
//! It ends with status 1 if a draw makes 2,000,000 visits or more, or a standing question for a whole
//! record 100,000 or more.

const PLACES: usize = 96;

/// How many failed searches are remembered for each number of steps left.
const KEPT: usize = 32;

#[derive(Clone, Copy)]
struct Link {
    giver: u8,
    taker: u8,
    row: u128,
}

#[derive(Clone)]
struct Links {
    links: [Link; PLACES],
    count: usize,
}

#[derive(Clone, Copy)]
struct Search {
    person: u8,
    allowed: u128,
}

#[derive(Clone, Copy)]
struct Failures {
    noted: [Search; KEPT],
    next: usize,
}

const FRESH: Failures = Failures { noted: [Search { person: 0, allowed: 0 }; KEPT], next: 0 };

#[derive(Clone, Copy)]
struct Step {
    keep: u128,
    onward: u128,
}

struct Plan {
    links: Links,
    steps: [Step; PLACES],
}

struct Net<'a> {
    plan: &'a Plan,
    near: [u128; 8],
    target: u8,
    last: u128,
    visits: u64,
}

fn select<T>(items: &[T], test: impl Fn(&T) -> bool) -> u128 {
    items.iter().enumerate().filter(|(_, item)| test(item)).fold(0, |s, (i, _)| s | 1 << i)
}

/// The places of a set, by rising number.
fn places(mut set: u128) -> impl Iterator<Item = usize> {
    std::iter::from_fn(move || {
        if set == 0 {
            return None;
        }
        let i = set.trailing_zeros() as usize;
        set &= set - 1;
        Some(i)
    })
}

impl Links {
    fn to(&self, person: u8) -> u128 {
        select(&self.links[..self.count], |link| link.taker == person)
    }

    fn by(&self, person: u8) -> u128 {
        select(&self.links[..self.count], |link| link.giver == person)
    }
}

impl Plan {
    fn new(links: &Links) -> Plan {
        let step = |link: Link| Step { keep: link.row & !links.to(link.taker), onward: links.by(link.taker) };
        Plan { links: links.clone(), steps: links.links.map(step) }
    }

    fn layers(&self, last: u128, base: u128) -> [u128; 8] {
        let mut near = [last & base; 8];
        for k in 0..7 {
            near[k + 1] = base & select(&self.steps, |step| step.onward & near[k] != 0);
        }
        near
    }

    fn net(&self, target: u8, base: u128) -> Net<'_> {
        let last = self.links.to(target);
        Net { plan: self, near: self.layers(last, base), target, last, visits: 0 }
    }
}

impl Net<'_> {
    fn walk(&mut self, at: u8, from: u128, allowed: u128, memory: &mut [Failures], path: &mut [u8]) -> bool {
        self.visits += 1;
        if path.is_empty() {
            return at == self.target;
        }
        if allowed & self.last == 0 {
            return false;
        }
        if memory[0].noted.iter().any(|f| f.person == at && allowed & f.allowed == allowed) {
            return false;
        }
        for i in places(allowed & from & self.near[path.len() - 1]) {
            let (taker, step) = (self.plan.links.links[i].taker, self.plan.steps[i]);
            if self.walk(taker, step.onward, allowed & step.keep, &mut memory[1..], &mut path[1..]) {
                path[0] = i as u8;
                return true;
            }
        }
        let f = &mut memory[0];
        let j = f.next % KEPT;
        (f.noted[j], f.next) = (Search { person: at, allowed }, j + 1);
        false
    }
}

/// The length of the best chain, and the visits.
fn best(plan: &Plan, owner: u8, target: u8, allowed: u128, most: usize) -> (Option<usize>, u64) {
    let start = allowed & !plan.links.to(owner);
    let mut net = plan.net(target, start);
    let from = plan.links.by(owner);
    for k in 0..most + 1 {
        let mut memory = [FRESH; 8];
        let mut path = [0u8; 8];
        if net.walk(owner, from, start, &mut memory[0..k], &mut path[0..k]) {
            return (Some(k), net.visits);
        }
    }
    (None, net.visits)
}

/// How many grants stand, and the visits of asking for all of them. A grant's column has the places
/// whose grant condition is true of its state; a grant found not to stand is left out from then on.
fn standing(links: &Links, owner: u8) -> (u32, u64) {
    let plan = Plan::new(links);
    let mut visits = 0;
    let mut stand = 0;
    let mut resting = 0u128;
    for (j, link) in links.links[..links.count].iter().enumerate() {
        let column = select(&links.links[..links.count], |other| other.row >> j & 1 == 1);
        let (found, v) = best(&plan, owner, link.giver, column & !resting, 7);
        visits += v;
        match found {
            Some(_) => stand += 1,
            None => resting |= 1 << j,
        }
    }
    (stand, visits)
}

struct Rng(u64);
impl Rng {
    fn next(&mut self) -> u64 {
        self.0 ^= self.0 << 13;
        self.0 ^= self.0 >> 7;
        self.0 ^= self.0 << 17;
        self.0
    }
    fn below(&mut self, n: u64) -> u64 {
        self.next() % n
    }
    fn chance(&mut self, percent: u64) -> bool {
        self.below(100) < percent
    }
}

fn rng(seed: u64) -> Rng {
    let mut r = Rng(seed * 7919 + 12345);
    for _ in 0..10 {
        r.next();
    }
    r
}

const ALL: u128 = (1 << 96) - 1;

/// Links by and to nobody, each of which admits every other.
fn no_links(count: usize) -> Links {
    Links { links: [Link { giver: 0, taker: 0, row: ALL }; 96], count }
}

/// Eight stages of twelve grants in parallel: from person s + 1 to person s + 2.
fn stages() -> Links {
    let mut l = no_links(96);
    for (i, link) in l.links.iter_mut().enumerate() {
        link.giver = (i / 12) as u8 + 1;
        link.taker = (i / 12) as u8 + 2;
    }
    l
}

/// The first stages together bar the whole of stage `last`, a few places each, so that nearly every
/// beginning is valid and no chain is complete.
fn bar(l: &mut Links, last: usize) {
    for b in 0..12 {
        for a in 0..12 {
            l.links[b * last / 12 * 12 + a].row &= !(1u128 << (last * 12 + b));
        }
    }
}

fn bar_last(l: &mut Links) {
    bar(l, 7);
}

fn records() -> Vec<(String, Links, u8)> {
    let mut all = vec![];
    let mut plain = stages();
    bar_last(&mut plain);
    all.push(("stages, the last one barred bit by bit".to_string(), plain, 9));
    for seed in 1..=12u64 {
        for from in 1..=4usize {
            let mut r = rng(seed * 31 + from as u64);
            let mut l = stages();
            for s in 0..7 {
                for a in 0..12 {
                    for later in (s + 1).max(from)..7 {
                        l.links[s * 12 + a].row &= !(1u128 << (later * 12 + r.below(12) as usize));
                    }
                }
            }
            bar_last(&mut l);
            all.push((format!("the same, each bars one place of each middle stage from {from} on, {seed}"), l, 9));
        }
    }
    for last in 3..7 {
        for seed in 1..=6u64 {
            let mut r = rng(seed * 57 + last as u64);
            let mut l = stages();
            for s in 0..last {
                for a in 0..12 {
                    for later in s + 1..last {
                        if seed > 1 && later as u64 + 2 > seed {
                            l.links[s * 12 + a].row &= !(1u128 << (later * 12 + r.below(12) as usize));
                        }
                    }
                }
            }
            bar(&mut l, last);
            all.push((format!("stages, stage {last} barred bit by bit, each bars one place of each later one, {seed}"), l, 9));
        }
    }
    for percent in [80, 90, 95, 98] {
        for seed in 1..=4u64 {
            let mut r = rng(seed * 101 + percent);
            let mut l = stages();
            for i in 0..96 {
                for j in 0..84 {
                    if !r.chance(percent) {
                        l.links[i].row &= !(1u128 << j);
                    }
                }
            }
            bar_last(&mut l);
            all.push((format!("the same, {percent} per cent of the middle admitted, {seed}"), l, 9));
        }
    }
    for (middle, copies) in [(4u8, 6usize), (5, 3), (6, 2), (8, 1)] {
        for percent in [95, 100] {
            let mut r = rng(middle as u64 * 1000 + percent);
            let mut l = no_links(0);
            for _ in 0..copies {
                for a in 1..=middle + 1 {
                    for b in 2..=middle + 1 {
                        if a != b && l.count < 90 {
                            l.links[l.count] = Link { giver: a, taker: b, row: ALL };
                            l.count += 1;
                        }
                    }
                }
            }
            let ways = l.count;
            for _ in 0..6 {
                l.links[l.count] = Link { giver: middle + 1, taker: middle + 2, row: ALL };
                l.count += 1;
            }
            for i in 0..ways {
                for j in 0..ways {
                    if !r.chance(percent) {
                        l.links[i].row &= !(1u128 << j);
                    }
                }
                if l.links[i].taker == middle + 1 {
                    l.links[i].row &= !(63u128 << ways);
                }
            }
            all.push((format!("everybody to everybody, {middle} persons, {copies} times, {percent} per cent"), l, middle + 2));
        }
    }
    all
}

/// Turns single bits of the worst record as long as that makes it no better.
fn climb(start: &Links, target: u8, seconds: u64) -> (Links, u64, u64) {
    let mut r = rng(987654321);
    let mut worst = (start.clone(), best(&Plan::new(start), 1, target, ALL, 8).1);
    let begun = std::time::Instant::now();
    let mut tries = 0;
    while begun.elapsed().as_secs() < seconds {
        let mut l = worst.0.clone();
        for _ in 0..1 + r.below(5) {
            l.links[r.below(96) as usize].row ^= 1u128 << r.below(96);
        }
        let (found, visits) = best(&Plan::new(&l), 1, target, ALL, 8);
        tries += 1;
        if found.is_none() && visits >= worst.1 {
            worst = (l, visits);
        }
    }
    (worst.0, worst.1, tries)
}

fn main() {
    let seconds = std::env::args().nth(1).and_then(|s| s.parse().ok()).unwrap_or(20);
    let mut worst: Option<(String, Links, u8, u64)> = None;
    let mut most_standing = 0;
    for (name, l, target) in records() {
        let (found, visits) = best(&Plan::new(&l), 1, target, ALL, 8);
        let (stand, all) = standing(&l, 1);
        println!("draw {visits:>8} visits ({found:?}), standing {all:>6} visits ({stand} stand): {name}");
        most_standing = most_standing.max(all);
        if worst.as_ref().map_or(true, |w| visits > w.3) {
            worst = Some((name, l, target, visits));
        }
    }
    let (name, l, target, visits) = worst.unwrap();
    println!("worst draw: {visits} visits, {name}");
    let (climbed, top, tries) = climb(&l, target, seconds);
    let all = standing(&climbed, 1).1;
    println!("worst draw after {tries} turned records: {top} visits, standing {all} visits");
    let mut ladder = no_links(9);
    for i in 0..9 {
        ladder.links[i] = Link { giver: i as u8 + 1, taker: i as u8 + 2, row: ALL };
    }
    let draw = best(&Plan::new(&ladder), 1, 9, ALL, 8);
    println!("ordinary, nine grants in a row: draw {} visits ({:?}), standing {} visits", draw.1, draw.0, standing(&ladder, 1).1);
    if top >= 2_000_000 || visits >= 2_000_000 || most_standing.max(all) >= 100_000 {
        std::process::exit(1);
    }
}
