//! What occurred: the kinds of verdicts and decisions, as the comparison counts them and the replayed list is chosen by them.

use oracle::Claim;
use oracle::decide::{Decision, Item, SIZE};
use oracle::measured::measured;
use solver::linalg::Matrix;

/// The leading rows of a covariance.
pub fn leading(c: &[f64; 6], rows: usize) -> Matrix {
    let terms = [[c[0], c[1], c[2]], [c[1], c[3], c[4]], [c[2], c[4], c[5]]];
    let mut matrix = Matrix::zeros(rows);
    for (row, values) in terms.iter().enumerate().take(rows) {
        for (column, value) in values.iter().enumerate().take(rows) {
            matrix.set(row, column, *value);
        }
    }
    matrix
}

/// The first diagonal of the Cholesky factor that is not above zero, found by the Rust on the leading blocks.
fn failing_diagonal(c: &[f64; 6], n: usize) -> Option<usize> {
    (1..=n).find(|&k| leading(c, k).cholesky().is_none())
}

pub fn kind(a: &Claim, chi2: f64, limit: f64, three: bool) -> &'static str {
    if measured(chi2).is_none() {
        return match failing_diagonal(&a.covariance, if three { 3 } else { 2 }) {
            Some(1) => "unmeasurable: first diagonal not above zero",
            Some(2) => "unmeasurable: second diagonal not above zero",
            Some(_) => "unmeasurable: third diagonal not above zero",
            None => "unmeasurable: a factor, but the sum is not finite",
        };
    }
    let steps = chi2.to_bits() as i64 - limit.to_bits() as i64;
    match steps {
        0 => "equal to the limit (agrees)",
        1 => "one f64 above the limit (disagrees)",
        -1 => "one f64 below the limit (agrees)",
        _ if chi2 == 0.0 => "zero (agrees)",
        _ if chi2 < 0.0 => "below zero (agrees)",
        _ if chi2 < limit => "finite, agrees",
        _ => "finite, disagrees",
    }
}

/// Which of 8's reasons a list has.
pub fn refusal_kind(bytes: &[u8]) -> &'static str {
    if !bytes.len().is_multiple_of(SIZE) {
        return "8: not whole items";
    }
    if bytes.len() / SIZE > 96 {
        return "8: over 96 items";
    }
    if bytes.chunks_exact(SIZE).any(|b| Item::read(b).is_none()) { "8: a malformed item" } else { "8: one identity twice" }
}

/// How often each thing happened in one decision.
pub fn features(items: &[Item], d: &Decision) -> Vec<(&'static str, u64)> {
    let contested: Vec<_> = d.refusals.iter().filter(|r| !r.superseded).collect();
    let refused = |at: u8| d.refusals.iter().any(|r| r.refused == at);
    let mut all = vec![
        ("items ranked", d.ranked.len()),
        ("items dominated", d.dominated.len()),
        ("items contested", contested.len()),
        ("items superseded", d.refusals.len() - contested.len()),
        ("refused against an item that is itself refused", d.refusals.iter().filter(|r| refused(r.kept)).count()),
        ("refused against an item that is dominated", contested.iter().filter(|r| d.dominated.contains(&r.kept)).count()),
        ("lists without items", usize::from(items.is_empty())),
        ("lists of 96 items", usize::from(items.len() == 96)),
        ("inconsistent items", items.iter().filter(|i| !i.consistent).count()),
        (
            "preferred items that are refused",
            items.iter().enumerate().filter(|(at, i)| i.preferred && refused(*at as u8)).count(),
        ),
        ("preferred items that are dominated", d.dominated.iter().filter(|at| items[usize::from(**at)].preferred).count()),
        (
            "ranked with disagreeing subsets, all superseded by another",
            d.ranked.iter().filter(|at| spared(items, d, usize::from(**at))).count(),
        ),
    ];
    for pair in d.ranked.windows(2) {
        let (a, b) = (&items[usize::from(pair[0])], &items[usize::from(pair[1])]);
        let by = if a.preferred != b.preferred {
            "neighbours in rank told apart by preferred"
        } else if a.standing != b.standing {
            "neighbours in rank told apart by standing"
        } else if a.record.weight() != b.record.weight() {
            "neighbours in rank told apart by weight"
        } else {
            "neighbours in rank told apart by identity"
        };
        all.push((by, 1));
    }
    all.into_iter().filter(|(_, times)| *times > 0).map(|(what, times)| (what, times as u64)).collect()
}

/// Whether an item has disagreeing subsets, does not supersede them itself, and is not refused.
fn spared(items: &[Item], d: &Decision, at: usize) -> bool {
    let larger = &items[at];
    let subset = |s: &Item| {
        s.record.message == larger.record.message
            && s.record.tags.len() < larger.record.tags.len()
            && s.record.tags.iter().all(|t| larger.record.tags.contains(t))
    };
    let disagreeing: Vec<usize> = (0..items.len())
        .filter(|&i| i != at && items[i].consistent && subset(&items[i]))
        .filter(|&i| {
            let (chi2, limit) = oracle::agreement(&items[i].record.claim(), &larger.record.claim());
            chi2 > limit
        })
        .collect();
    let own = larger.verified == Some(true) && disagreeing.iter().all(|&i| larger.standing > items[i].standing);
    !disagreeing.is_empty() && !own && !d.refusals.iter().any(|r| usize::from(r.refused) == at)
}
