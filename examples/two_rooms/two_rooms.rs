//! Two control rooms get the reports of four engines over ten minutes, each in its own order, with copies and late ones, and cut them
//! by transmit time into windows with a register each. Half way engine 7 is convicted. In the end all boards are equal.
use std::collections::{BTreeMap, BTreeSet};
use toastlagoon::{Covariance, Desk, Error, Fields, Record, Register};
const SECOND: u64 = 1_000_000_000;
const START: u64 = 1_731_679_200 * SECOND;
const ENGINES: [(u32, u64, u64); 4] = [(1, 3, 101), (2, 4, 102), (3, 4, 101), (7, 5, 103)]; // number, receivers, first; the last lies
type Room = BTreeMap<u64, Register>;
/// A number that depends on nothing but its arguments. Kinds: 0 not heard, 1 reading of the time, 2 link, 3 late, 4 copy.
fn drawn(kind: u64, room: u64, t: u64, e: usize) -> u64 {
    let x = (((kind * 4 + room) * 65_536 + t) * 64 + e as u64 + 1).wrapping_mul(0x9e37_79b9_7f4a_7c15);
    let x = (x ^ (x >> 30)).wrapping_mul(0xbf58_476d_1ce4_e5b9);
    let x = (x ^ (x >> 27)).wrapping_mul(0x94d0_49bb_1331_11eb);
    x ^ (x >> 31)
}
fn time_of(t: u64, e: usize) -> u64 {
    START + t * SECOND / 2 + SECOND / 10 + drawn(1, 0, t, e) % 2_000
}
fn record(t: u64, e: usize) -> Result<Record, Error> {
    let (_, count, first) = ENGINES[e];
    let (off, models, spec): (i32, &[u8], u16) = if e == 3 { (1_000_000, &[], 0) } else { (0, &[5], 1) };
    let (message, tags) = ([0x8d, 0x3c, 0x6d, 0xd0, t as u8, (t >> 8) as u8, 0], Vec::from_iter(first..first + count));
    let (lat, lon, height) = (off + 481_370_000 + 1_800 * t as i32 + 100 * e as i32, 115_820_000, Some(312_400));
    let (time, used, covariance) = (time_of(t, e), (1 << count) - 1, Covariance::diagonal(100.0));
    Record::new(&Fields { time, lat, lon, height, message: &message, tags: &tags, used, models, spec, covariance })
}
fn arrivals(room: u64) -> BTreeSet<(u64, u64, usize)> {
    let mut got = BTreeSet::new();
    for (t, e) in (0..1_200).flat_map(|t| (0..4).map(move |e| (t, e))).filter(|&(t, e)| drawn(0, 0, t, e) % 16 != 0) {
        let late = Some(drawn(3, room, t, e)).filter(|late| late % 20 == 0).map_or(0, |late| late / 20 % (60 * SECOND));
        let at = time_of(t, e) + SECOND / 20 + drawn(2, room, t, e) % SECOND + late;
        got.extend((0..=u64::from(drawn(4, room, t, e) % 25 == 0)).map(|copy| (at + copy * SECOND, t, e)));
    }
    got
}
/// The room's registers by their windows, each with the summaries and from half way on the conviction; and the refused reports.
fn run(room: u64) -> Result<(Room, usize, Vec<Error>), Error> {
    let (got, mut windows, mut refused) = (arrivals(room), Room::new(), Vec::new());
    for (i, &(_, t, e)) in got.iter().enumerate() {
        let (window, half) = ((time_of(t, e) - START) / (4 * SECOND), got.len() / 2 + 200 * room as usize);
        (1..=3).try_for_each(|engine| windows.entry(window).or_default().summary(engine, 5, 1, &[0; 32]))?;
        let mut told = windows.iter_mut().filter(|(w, _)| i == half || i > half && **w == window);
        told.try_for_each(|(_, register)| register.convict(Desk::Manager, ENGINES[3].0))?;
        refused.extend(windows.entry(window).or_default().report(ENGINES[e].0, &record(t, e)?).err());
    }
    Ok((windows, got.len(), refused))
}
fn main() -> Result<(), Error> {
    let rooms = [run(0)?, run(1)?];
    for (name, (_, count, refused)) in ["north", "south"].iter().zip(&rooms) {
        let (done, n, first) = (count - refused.len(), refused.len(), refused[0]);
        println!("{name}: {count} reports, {done} answered 0 (done), {n} answered {} ({first})", first.number());
    }
    let (north, south) = (&rooms[0].0, &rooms[1].0);
    let same = north.iter().filter(|(window, register)| south.get(window) == Some(register)).count();
    let boards = |room: &Room| Vec::from_iter(room.iter().map(|(w, r)| (*w, r.board(Desk::Manager))));
    let equal = if boards(north) == boards(south) { "all boards are equal" } else { "boards differ" };
    println!("{} windows, {same} hold the same in both rooms, {equal}", north.len());
    Ok(())
}
