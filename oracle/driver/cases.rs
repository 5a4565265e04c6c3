//! What came up in a track call, read from the track's bytes before and after it.

use crate::calls::Call;
use crate::heights;
use oracle::decide::{self, Decision};
use oracle::layout::{
    CONSISTENT_AT, COVARIANCE_AT, IDENTITY_AT, INPUTS_AT, MESSAGE_LENGTH_AT, MODEL_COUNT_AT, MODELS_AT, PLACE, RECORD,
    TAG_COUNT_AT, TAGS_AT, USED_AT,
};
use oracle::track::{
    Answer, FIX, FIXES, FIXES_AT, REFUSALS, REFUSED, REFUSED_AT, SUMMARIES_AT, SUMMARY, TRANSMISSION, TRANSMISSIONS,
    TRANSMISSIONS_AT,
};
use std::collections::BTreeMap;

pub type Counts = BTreeMap<&'static str, u64>;

/// One transmission of a track's bytes.
#[derive(Clone, Copy)]
struct Block<'a>(&'a [u8]);

impl<'a> Block<'a> {
    fn fixes(self) -> impl Iterator<Item = &'a [u8]> {
        (0..usize::from(self.0[0])).map(move |k| &self.0[FIXES_AT + FIX * k..][..FIX])
    }

    fn refused(self) -> impl Iterator<Item = &'a [u8]> {
        (0..usize::from(self.0[1])).map(move |k| &self.0[REFUSED_AT + REFUSED * k..][..FIX])
    }

    fn held(self) -> impl Iterator<Item = &'a [u8]> {
        self.fixes().chain(self.refused())
    }

    fn current(self) -> &'a [u8] {
        &self.0[FIXES_AT..][..FIX]
    }
}

fn count(b: &[u8]) -> usize {
    usize::from(b[6])
}

fn blocks(b: &[u8]) -> impl Iterator<Item = Block<'_>> {
    b[TRANSMISSIONS_AT..][..TRANSMISSION * count(b)].chunks_exact(TRANSMISSION).map(Block)
}

fn held(b: &[u8]) -> impl Iterator<Item = &[u8]> {
    blocks(b).flat_map(Block::held)
}

/// The heights that a listing of this track writes.
pub fn count_heights(b: &[u8], counts: &mut Counts) {
    let height = |fix: &[u8]| (fix[16] == 1).then(|| i32::from_le_bytes(fix[17..21].try_into().unwrap()));
    heights::kinds(held(b).filter_map(height)).for_each(|kind| *counts.entry(kind).or_default() += 1);
}

fn summaries(b: &[u8]) -> impl Iterator<Item = &[u8]> {
    b[SUMMARIES_AT..][..SUMMARY * usize::from(u16::from_le_bytes([b[4], b[5]]))].chunks_exact(SUMMARY)
}

fn contested(b: &[u8]) -> u64 {
    u64::from_le_bytes(b[8..16].try_into().unwrap())
}

fn tags(record: &[u8]) -> impl Iterator<Item = &[u8]> {
    record[TAGS_AT..][..8 * usize::from(record[TAG_COUNT_AT])].chunks_exact(8)
}

/// The same message and a common tag.
fn tied(a: &[u8], b: &[u8]) -> bool {
    a[21..36] == b[21..36] && tags(a).any(|tag| tags(b).any(|other| tag == other))
}

/// What an identity is the hash of: message, tags, inputs.
fn set(fix: &[u8]) -> (&[u8], &[u8], &[u8]) {
    (&fix[MESSAGE_LENGTH_AT..USED_AT], &fix[TAGS_AT..MODEL_COUNT_AT], &fix[PLACE..FIX])
}

/// Whether the summaries of a model disagree.
fn disputed(b: &[u8], model: u8) -> bool {
    let mut said = summaries(b).filter(|s| s[1] == model).map(|s| &s[2..]);
    let first = said.next();
    said.any(|other| Some(other) != first)
}

fn cites(fix: &[u8], model: u8) -> bool {
    fix[MODELS_AT..][..usize::from(fix[MODEL_COUNT_AT])].contains(&model)
}

/// What is decided of these fixes. Who is named in a refusal depends on the identities, how many are refused does not.
fn decided<'a>(fixes: impl Iterator<Item = &'a [u8]>) -> Decision {
    let mut items = Vec::new();
    for (i, fix) in fixes.enumerate() {
        let mut item = [0u8; decide::SIZE];
        item[..RECORD].copy_from_slice(&fix[..RECORD]);
        item[INPUTS_AT..IDENTITY_AT].copy_from_slice(&fix[PLACE..FIX]);
        item[IDENTITY_AT] = i as u8;
        item[CONSISTENT_AT] = 1;
        items.extend_from_slice(&item);
    }
    decide::decide(&items).expect("items that can be decided")
}

/// A fix of a report that is not held yet: only what is decided by counts, whatever its inputs.
fn newcomer(record: &[u8]) -> [u8; FIX] {
    let mut fix = [0u8; FIX];
    fix[..RECORD].copy_from_slice(record);
    fix
}

/// The cases of one call, as they are found.
pub struct Seen<'a> {
    pub before: &'a [u8],
    pub after: &'a [u8],
    pub counts: &'a mut Counts,
}

impl Seen<'_> {
    fn add(&mut self, what: &'static str, so: bool) {
        if so {
            *self.counts.entry(what).or_default() += 1;
        }
    }

    pub fn call(&mut self, call: &Call, told: Answer) {
        self.add(answered(call, told), true);
        match (call, told) {
            (Call::Report { record, .. }, Answer::Changed | Answer::Contested | Answer::Duplicate | Answer::Dropped) => {
                self.report(record, told)
            }
            (Call::Summary { engine, model, .. }, Answer::Number(0)) => self.summary(*engine, *model),
            (Call::Convict { engine }, Answer::Number(0)) => self.conviction(*engine),
            _ => {}
        }
    }

    fn report(&mut self, record: &[u8], told: Answer) {
        let ties: Vec<Block> = blocks(self.before).filter(|one| one.held().any(|fix| tied(fix, record))).collect();
        let same = self.before[..] == self.after[..];
        let finite = record[COVARIANCE_AT..RECORD].chunks_exact(8).all(|x| f64::from_le_bytes(x.try_into().unwrap()).is_finite());
        self.add("report: its message has 14 bytes", record[21] == 14);
        self.add("report: its covariance has an infinity or a NaN", !finite);
        self.add("report: tied to two transmissions or more", ties.len() > 1);
        self.add("report: Changed, and no byte changed", told == Answer::Changed && same);
        self.add("report: Dropped, and bytes changed", told == Answer::Dropped && !same && ties.len() == 1);
        match ties.as_slice() {
            [one] => self.join(*one, record, told),
            _ => {
                let full = count(self.before) == TRANSMISSIONS;
                self.add("report: pushed the oldest transmission out", full && !same);
                self.add("report: was itself the oldest of nine", full && same);
            }
        }
        self.held_twice();
    }

    fn join(&mut self, one: Block, record: &[u8], told: Answer) {
        let grew = contested(self.after).wrapping_sub(contested(self.before));
        self.add("report: two or more fixes refused by it", grew > 1);
        if told == Answer::Duplicate {
            let among = |fix: &[u8]| {
                fix[MESSAGE_LENGTH_AT..USED_AT] == record[MESSAGE_LENGTH_AT..USED_AT]
                    && fix[TAGS_AT..MODEL_COUNT_AT] == record[TAGS_AT..MODEL_COUNT_AT]
            };
            self.add("report: Duplicate of a refused fix", !one.fixes().any(among));
            let other = one.held().any(|fix| among(fix) && fix[..RECORD] != *record);
            self.add(
                "report: Duplicate of a fix at another place or time",
                other && !one.held().any(|fix| fix[..RECORD] == *record),
            );
            return;
        }
        let items = one.held().count() + 1;
        self.add(joined(items), true);
        if items > REFUSALS {
            // The newcomer's own inputs are not at hand; those of the first cited alike are as good for a count.
            let mut new = newcomer(record);
            if let Some(alike) = one
                .held()
                .chain(held(self.after))
                .find(|fix| fix[MODEL_COUNT_AT..COVARIANCE_AT] == record[MODEL_COUNT_AT..COVARIANCE_AT])
            {
                new[PLACE..FIX].copy_from_slice(&alike[PLACE..FIX]);
            }
            let found = decided(one.held().chain([&new[..]]));
            self.add("report: more than four refused in one decision", found.refusals.len() > REFUSALS);
            self.add("report: more than five ranked in one decision", found.ranked.len() > FIXES);
        }
    }

    /// What two transmissions have alike.
    fn held_twice(&mut self) {
        let all: Vec<Block> = blocks(self.after).collect();
        let pairs = || all.iter().enumerate().flat_map(|(i, a)| all[i + 1..].iter().map(move |b| (a.current(), b.current())));
        let same = |a: &[u8], b: &[u8]| set(a) == set(b);
        self.add("report: two transmissions then have one identity first", pairs().any(|(a, b)| same(a, b)));
        self.add(
            "report: two transmissions then have one time and identity",
            pairs().any(|(a, b)| same(a, b) && a[..8] == b[..8]),
        );
    }

    fn summary(&mut self, engine: u8, model: u8) {
        let was = |b: &[u8]| summaries(b).filter(|s| s[1] == model).map(|s| s.to_vec()).collect::<Vec<_>>();
        let (then, now) = (was(self.before), was(self.after));
        let only = then.len() == 1 && then[0][0] == engine && then != now;
        let cited = held(self.before).any(|fix| cites(fix, model));
        let disputes = disputed(self.after, model) && !disputed(self.before, model);
        let gone = held(self.before).count() - held(self.after).count().min(held(self.before).count());
        self.add("summary: a model changed by its only signer, cited by a held fix", only && cited);
        self.add("summary: disputes a model", disputes);
        self.add("summary: disputes a model, and no held fix goes", disputes && gone == 0);
        self.add("summary: recheck dropped a fix", gone > 0);
        self.add("summary: recheck left a transmission without fix", count(self.after) < count(self.before));
        self.add("summary: settles a dispute", disputed(self.before, model) && !disputed(self.after, model));
    }

    fn conviction(&mut self, engine: u8) {
        let (b, a) = (self.before, self.after);
        let bit = |fix: &[u8]| u32::from_le_bytes(fix[RECORD..PLACE].try_into().unwrap()) >> engine & 1 == 1;
        let mask = u32::from_le_bytes(b[..4].try_into().unwrap());
        let bystander = mask >> engine & 1 == 0 && !held(b).any(bit) && !summaries(b).any(|s| s[0] == engine);
        let moved = b[4..] != a[4..];
        let again =
            |one: Block| one.refused().any(|fix| blocks(a).any(|other| other.fixes().any(|f| f[..RECORD] == fix[..RECORD])));
        let lost = held(b).filter(|fix| !bit(fix) && !held(a).any(|other| other[..RECORD] == fix[..RECORD])).count();
        let settles = summaries(b).any(|s| s[0] == engine && disputed(b, s[1]) && !disputed(a, s[1]));
        self.add("conviction: of an engine convicted already", mask >> engine & 1 == 1);
        self.add("conviction: repeated, and fixes change", mask >> engine & 1 == 1 && moved);
        self.add("conviction: of a bystander", bystander);
        self.add("conviction: of a bystander, and fixes change", bystander && moved);
        self.add("conviction: left a transmission without fix", count(a) < count(b));
        self.add("conviction: a fix of others only is dropped too", lost > 0);
        self.add("conviction: a refused fix stands again", blocks(b).any(again));
        self.add("conviction: settles a dispute", settles);
    }
}

fn joined(items: usize) -> &'static str {
    match items {
        2 => "report: joined, 2 fixes decided",
        3..=5 => "report: joined, 3 to 5 fixes decided",
        6..=9 => "report: joined, 6 to 9 fixes decided",
        _ => "report: joined, 10 fixes decided",
    }
}

fn answered(call: &Call, told: Answer) -> &'static str {
    match (call, told) {
        (_, Answer::Changed) => "report answered Changed",
        (_, Answer::Contested) => "report answered Contested",
        (_, Answer::Duplicate) => "report answered Duplicate",
        (_, Answer::Dropped) => "report answered Dropped",
        (Call::Report { .. }, Answer::Number(2)) => "report answered 2",
        (Call::Report { .. }, Answer::Number(3)) => "report answered 3",
        (Call::Report { .. }, Answer::Number(4)) => "report answered 4",
        (Call::Report { .. }, Answer::Number(7)) => "report answered 7",
        (Call::Report { .. }, Answer::Number(13)) => "report answered 13",
        (Call::Report { .. }, Answer::Waiting) => "report answered 24",
        (Call::Summary { .. }, Answer::Number(0)) => "summary answered 0",
        (Call::Summary { .. }, Answer::Number(2)) => "summary answered 2",
        (Call::Summary { .. }, Answer::Number(4)) => "summary answered 4",
        (Call::Summary { .. }, Answer::Number(5)) => "summary answered 5",
        (Call::Summary { .. }, Answer::Number(9)) => "summary answered 9",
        (Call::Convict { .. }, Answer::Number(0)) => "conviction answered 0",
        (Call::Convict { .. }, Answer::Number(2)) => "conviction answered 2",
        _ => "answered what the specification does not name",
    }
}

pub fn print(counts: &Counts) {
    for (what, times) in counts {
        println!("  {times:>9}  {what}");
    }
}
