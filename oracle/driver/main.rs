//! Runs the library beside the oracle on random and adversarial inputs, counts what occurred, and stops at a difference with the
//! smallest input that it finds.

mod binding;
mod calls;
mod cases;
mod claims;
mod heights;
mod kinds;
mod lent;
mod lists;
#[cfg(has_register)]
mod maps;
mod measured;
#[cfg(has_register)]
mod previews;
mod random;
#[cfg(has_register)]
mod registers;
mod shelves;
mod shown;
#[cfg(has_register)]
mod spans;
mod tracks;
mod tried;
#[cfg(has_register)]
mod values;

use oracle::decide::{Decision, SIZE};
use oracle::measured::{Outcome, outcome};
use oracle::{Claim, hex};
use random::Random;
use std::collections::BTreeMap;

type Counts = BTreeMap<&'static str, u64>;

fn count(counts: &mut Counts, what: &'static str, times: u64) {
    *counts.entry(what).or_default() += times;
}

fn print(title: &str, counts: &Counts) {
    println!("{title}");
    for (what, times) in counts {
        println!("  {times:>9}  {what}");
    }
}

/// A chi-square's bits, with one zero (a zero's sign is free).
fn same(a: f64, b: f64) -> bool {
    oracle::bits(a + 0.0) == oracle::bits(b + 0.0)
}

fn claim_line(c: &Claim) -> String {
    let height = c.height.map_or("none".to_string(), |h| h.to_string());
    let digits: String = c.covariance.iter().map(|x| format!("{:016x}", x.to_bits())).collect();
    format!("{} {} {height} {digits}", c.lat, c.lon)
}

/// The answer's number, the bits of both numbers, and that both stay as they were where nothing is measured.
fn agreement_differs(a: &Claim, b: &Claim) -> bool {
    binding::outcome(a, b).is_some_and(|ours| ours != Ok(outcome(a, b)))
}

/// How many latitudes and longitudes stood at each of `claims::SIDES`.
type Sides = [[u64; 2]; claims::SIDES.len()];

fn count_sides(claim: &Claim, sides: &mut Sides) {
    for (side, seen) in claims::SIDES.iter().zip(sides) {
        seen[0] += u64::from(claim.lat == *side);
        seen[1] += u64::from(claim.lon == *side);
    }
}

/// Stops where an edge was not tried, unless there are so few pairs that none may have come.
fn print_sides(sides: &Sides, pairs: u64) {
    println!("  angles at the edges between quadrants and at the ends, of pairs whose chi-square is a number");
    for (side, [lat, lon]) in claims::SIDES.iter().zip(sides) {
        println!("  {lat:>9}  latitudes of {side}, {lon} longitudes");
    }
    if pairs >= 20_000 && sides.iter().flatten().any(|n| *n == 0) {
        println!("NOT TRIED: an edge above");
        std::process::exit(1);
    }
}

fn compare_pair(a: &Claim, b: &Claim, at_limit: bool, counts: &mut Counts, sides: &mut Sides) {
    let (chi2, limit) = oracle::agreement(a, b);
    if chi2.is_finite() {
        count_sides(a, sides);
        count_sides(b, sides);
    }
    let three = a.height.is_some() && b.height.is_some();
    count(counts, kinds::kind(a, chi2, limit, three), 1);
    count(counts, measured::pair(a, b), 1);
    count(counts, if three { "(with both heights)" } else { "(without a height)" }, 1);
    count(counts, "(pairs set at the limit)", u64::from(at_limit));
    #[cfg(real_libm)]
    {
        let (real, _) = oracle::real::agreement(a, b);
        let what = if at_limit {
            "(verdicts that the real libm would change, pairs set at the limit)"
        } else {
            "(verdicts that the real libm would change, other pairs)"
        };
        count(counts, what, u64::from((real <= limit) != (chi2 <= limit)));
        count(counts, "(chi-squares that the real libm would change)", u64::from(!same(real, chi2)));
    }
    if agreement_differs(a, b) {
        let (a, b) = claims::shrink((*a, *b), &agreement_differs);
        let ours = binding::outcome(&a, &b).unwrap().map_or_else(|words| words, |ours: Outcome| ours.to_string());
        different("agreement", format!("{} {}", claim_line(&a), claim_line(&b)), outcome(&a, &b).to_string(), ours);
    }
}

fn compare_agreement(random: &mut Random, pairs: u64) {
    let mut counts = Counts::new();
    let mut sides = Sides::default();
    let mut done = 0;
    while done < pairs {
        let (some, at_limit) = match random.below(64) {
            0 => (claims::at_limit(random), true),
            1..=3 => (vec![claims::overflowing(random)], false),
            _ => (vec![claims::pair(random)], false),
        };
        for (a, b) in some {
            compare_pair(&a, &b, at_limit, &mut counts, &mut sides);
            done += 1;
        }
    }
    print(&format!("agreement: {done} pairs, {}", beside(binding::AGREEMENT)), &counts);
    print_sides(&sides, done);
    tried::all(measured::PAIRS, |kind| counts.contains_key(kind), done);
}

fn beside(has: bool) -> &'static str {
    if has { "library and Rust alike" } else { "the Rust alone (not in the library)" }
}

/// A function of the library that decides items, its name, and what the Rust says.
#[derive(Clone, Copy)]
struct Decides {
    name: &'static str,
    library: binding::Decide,
    rust: fn(&[u8]) -> Option<Decision>,
}

const GIVEN: Decides = Decides { name: "decide", library: binding::decide_into, rust: oracle::decide::decide };

const ANY: Decides = Decides { name: "decide_any", library: binding::decide_any_into, rust: oracle::decide::decide_any };

impl Decides {
    /// What is wrong with the library's answer, in words.
    fn differs(self, bytes: &[u8]) -> Option<String> {
        binding::decide_differs(self.library, bytes, (self.rust)(bytes).as_ref())
    }

    fn compare(self, bytes: &[u8]) {
        if self.differs(bytes).is_none() {
            return;
        }
        let least = lists::shrink(bytes.to_vec(), &|fewer| self.differs(fewer).is_some());
        println!("DIFFERENT: {} of {} bytes", self.name, least.len());
        for item in least.chunks(SIZE) {
            println!("  {}", hex::write(item));
        }
        println!("  Rust    {}", (self.rust)(&least).map_or("answer=8".to_string(), |d| d.line()));
        println!("  library {}", self.differs(&least).unwrap());
        std::process::exit(1);
    }
}

/// The items in the order given, the other way round, and in any order.
fn orders(random: &mut Random, bytes: &[u8]) -> [Vec<u8>; 3] {
    let items: Vec<&[u8]> = bytes.chunks(SIZE).collect();
    let mut any = items.clone();
    for i in (1..any.len()).rev() {
        any.swap(i, random.below(i as u64 + 1) as usize);
    }
    [items.concat(), items.iter().rev().copied().collect::<Vec<_>>().concat(), any.concat()]
}

/// The decision in ascending identity beside the one in the order given: the same ranked, and the same others but for their order.
fn compare_any(random: &mut Random, bytes: &[u8]) {
    for list in orders(random, bytes) {
        ANY.compare(&list);
        let (given, any) = (oracle::decide::decide(&list), oracle::decide::decide_any(&list));
        if given.map(Decision::in_places) != any.map(Decision::in_places) {
            println!("DIFFERENT: the Rust's decisions of {}, in the order given and in ascending identity", hex::write(&list));
            std::process::exit(1);
        }
    }
}

fn no_chi2(decision: &Decision) -> Decision {
    let mut plain = decision.clone();
    plain.refusals.iter_mut().for_each(|r| r.chi2 = None);
    plain
}

fn compare_list(bytes: &[u8], counts: &mut Counts) {
    match (oracle::decide::items(bytes), oracle::decide::decide(bytes)) {
        (Some(items), Some(decision)) => {
            for (what, times) in kinds::features(&items, &decision) {
                count(counts, what, times);
            }
            measured::refusals(&decision).for_each(|what| count(counts, what, 1));
            #[cfg(real_libm)]
            {
                let real = oracle::decide::decide_real(bytes).unwrap();
                count(counts, "(decisions that the real libm would change)", u64::from(no_chi2(&real) != no_chi2(&decision)));
            }
        }
        _ => count(counts, kinds::refusal_kind(bytes), 1),
    }
    GIVEN.compare(bytes);
}

fn compare_decide(random: &mut Random, lists: u64) {
    let mut counts = Counts::new();
    for _ in 0..lists {
        let list = lists::list(random);
        compare_list(&list, &mut counts);
        compare_any(random, &list);
    }
    print(&format!("decide: {lists} lists, {}", beside(binding::DECIDE)), &counts);
    println!("decide_any: the same lists in three orders, {}", beside(binding::DECIDE_ANY));
    tried::all(measured::REFUSALS, |kind| counts.contains_key(kind), lists);
}

fn different(what: &str, input: String, rust: String, ours: String) -> ! {
    println!("DIFFERENT: {what} {input}\n  Rust    {rust}\n  library {ours}");
    std::process::exit(1)
}

fn compare_root(random: &mut Random, times: u64) {
    if !binding::ROOT {
        return println!("root: not in the library");
    }
    for i in 0..times {
        let x = if i % 2 == 0 { f64::from_bits(random.next()) } else { claims::pattern(random) };
        let (theirs, ours) = (x.sqrt(), binding::root(x).unwrap());
        // A zero's sign is free, but is compared here: the root of -0.0 is -0.0.
        if oracle::bits(theirs) != oracle::bits(ours) {
            different(
                "root",
                format!("{:016x}", x.to_bits()),
                format!("{:016x}", theirs.to_bits()),
                format!("{:016x}", ours.to_bits()),
            );
        }
    }
    println!("root: {times} values, library and the machine's sqrt alike");
}

fn compare_sigma(random: &mut Random, times: u64) {
    if !binding::SIGMA {
        return println!("horizontal sigma: not in the library");
    }
    for _ in 0..times {
        let c = if random.one_in(2) { [0.0; 6].map(|_: f64| claims::pattern(random)) } else { claims::pair(random).0.covariance };
        let (theirs, ours) = (oracle::horizontal_sigma(&c), binding::horizontal_sigma(&c).unwrap());
        if !same(theirs, ours) {
            different("sigma", format!("{c:?}"), format!("{theirs}"), format!("{ours}"));
        }
    }
    println!("horizontal sigma: {times} covariances, library and Rust alike");
}

fn compare_hash(random: &mut Random, times: u64) {
    if !binding::HASH {
        return println!("hash: not in the library");
    }
    for i in 0..times {
        let input = random.bytes((i % 700) as usize);
        let (theirs, ours) = (oracle::blake2s256(&input), binding::blake2s256(&input).unwrap());
        if theirs != ours {
            different("hash", hex::write(&input), hex::write(&theirs), hex::write(&ours));
        }
    }
    println!("hash: {times} strings of 0 to 699 bytes, library and the oracle's BLAKE2s alike");
}

fn main() {
    let mut words = std::env::args().skip(1);
    let mut number = |otherwise: u64| words.next().map_or(otherwise, |w| w.parse().expect("a number"));
    let (pairs, lists, others) = (number(1_000_000), number(200_000), number(200_000));
    let (calls, tracks, shelves, seed) = (number(200_000), number(1_000_000), number(200_000), number(1));
    let mut random = Random(seed);
    compare_hash(&mut random, others / 10);
    compare_root(&mut random, others);
    compare_sigma(&mut random, others);
    compare_agreement(&mut random, pairs);
    compare_decide(&mut random, lists);
    tracks::compare(&mut random, tracks);
    lent::compare(&mut random, tracks / 5);
    shelves::compare(&mut random, shelves);
    #[cfg(has_register)]
    {
        registers::compare(&mut random, calls);
        values::compare(&mut random, calls);
    }
    #[cfg(not(has_register))]
    println!("register: not in the library ({calls} lists of calls left out)");
    println!("no difference");
}
