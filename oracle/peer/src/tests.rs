//! What the peer must do on the sessions that the specification, or a reading of it, settles; and on previews.

use crate::board;
use crate::cases::*;
use crate::register::{self, ANALYST, CREW, MANAGER, Register, SIZE};
use crate::session::{register_after, session};
use oracle::lines::metres;

/// What comes after the answers.
fn board_of(input: &str) -> String {
    session(input.as_bytes()).lines().filter(|l| !l.starts_with("answer=")).map(|l| format!("{l}\n")).collect()
}

fn answers(input: &str) -> Vec<u32> {
    session(input.as_bytes()).lines().filter_map(|l| l.strip_prefix("answer=")).map(|n| n.parse().unwrap()).collect()
}

fn bad(input: &str, line: usize) {
    assert_eq!(session(input.as_bytes()), format!("refused=11 line={line}\n"), "{input}");
}

#[test]
fn the_worked_session_byte_for_byte() {
    let expected = "answer=0\nanswer=0\nanswer=0\ntransmission=1 ranked=1 dominated=0 refused=1\n\
        role=ranked time=1000 lat=500000000 lon=100000000 height=2 weight=2 signers=00000002\n\
        role=refused time=1000 lat=500000000 lon=100000000 height=none weight=3 signers=00000004 chi2=none\n";
    assert_eq!(session(worked().as_bytes()), expected);
}

#[test]
fn nested_fixes_in_all_orders() {
    let n = nested();
    let boards: Vec<String> = [[0, 1, 2], [0, 2, 1], [1, 0, 2], [1, 2, 0], [2, 0, 1], [2, 1, 0]]
        .iter()
        .map(|order| board_of(&order.iter().map(|&i: &usize| n[i].text()).collect::<String>()))
        .collect();
    assert!(boards.iter().all(|b| *b == boards[0]));
    assert!(boards[0].starts_with("transmission=1 ranked=1 dominated=1 refused=1\nrole=ranked time=1000 lat=2700 "));
    assert!(boards[0].contains("role=dominated time=1000 lat=0 ") && boards[0].contains("role=refused time=1000 lat=5400 "));
}

#[test]
fn two_rooms_draw_one_board() {
    let (one, two) = rooms();
    assert_ne!(answers(&one).len(), answers(&two).len());
    assert!(answers(&one).iter().chain(&answers(&two)).all(|&a| a == 0));
    assert_eq!(board_of(&one), board_of(&two));
    assert!(board_of(&one).contains("transmission=2 "));
}

#[test]
fn a_conviction_half_way() {
    let (_, input) = cases().into_iter().find(|c| c.0 == "convicted-half-way").unwrap();
    assert_eq!(answers(&input), [0, 0, 0, 0, 4]);
    let board = board_of(&input);
    // S went with its only signer, so M and L agree and L dominates.
    assert!(board.starts_with("transmission=1 ranked=1 dominated=1 refused=0\nrole=ranked time=1000 lat=5400 "), "{board}");
    assert!(!board.contains("signers=00000002"));
}

#[test]
fn one_identity_with_two_positions() {
    let (_, input) = cases().into_iter().find(|c| c.0 == "one-identity-two-positions").unwrap();
    // Latitude 0 comes first in byte order, and both engines sign.
    let line = "role=ranked time=1000 lat=0 lon=0 height=2 weight=1 signers=00000006\n";
    assert_eq!(board_of(&input), format!("transmission=1 ranked=1 dominated=0 refused=0\n{line}"));
}

#[test]
fn a_fix_tied_to_two_transmissions_joins_them() {
    let (_, input) = cases().into_iter().find(|c| c.0 == "tied-to-two").unwrap();
    assert!(board_of(&input).starts_with("transmission=1 ranked=1 dominated=2 refused=0\n"));
    let apart = Report::new(1, &[1], 0).text() + &Report::new(1, &[2], 0).text();
    assert!(board_of(&apart).contains("transmission=2 "));
}

/// The limit of a link.
#[test]
fn times_to_the_nanosecond() {
    let board = |small: u64, large: u64| board_of(&apart(small, large).map(|r| r.text()).concat());
    for (one, other, joined) in [
        (0, 1_999_999_999, true),
        (0, 2_000_000_000, true),
        (0, 2_000_000_001, false),
        (u64::MAX - 2_000_000_000, u64::MAX, true),
        (u64::MAX - 2_000_000_001, u64::MAX, false),
        (0, u64::MAX, false),
        (0, HOUR, false),
    ] {
        let first = if joined {
            "transmission=1 ranked=1 dominated=1 refused=0\n"
        } else {
            "transmission=1 ranked=1 dominated=0 refused=0\n"
        };
        assert!(board(one, other).starts_with(first) && board(other, one).starts_with(first), "{one} {other}");
        assert_eq!(board(one, other).contains("transmission=2 "), !joined, "{one} {other}");
    }
}

#[test]
fn a_chain_is_longer_than_a_link() {
    let [start, middle, end] = chain().map(|r| r.text());
    for order in [[&start, &middle, &end], [&end, &start, &middle], [&middle, &end, &start]] {
        let board = board_of(&order.map(String::as_str).concat());
        assert!(
            board.starts_with("transmission=1 ranked=1 dominated=2 refused=0\n") && !board.contains("transmission=2 "),
            "{board}"
        );
    }
    assert!(board_of(&(start + &end)).contains("transmission=2 "));
}

/// Records of one identity have one representative, whatever their times: the first by bytes, lowest byte of the time first.
#[test]
fn one_identity_with_two_times() {
    let at = |engine: u32, time: u64| Report { time, ..Report::new(engine, &[1], 0) };
    let large = Report { time: 2, ..Report::new(3, &[1, 2], 0) }.text();
    let board = |early: u64| board_of(&(at(1, early).text() + &at(2, HOUR).text() + &large));
    // 0 comes before an hour, whose lowest byte is 0 too; 1 does not.
    assert!(board(0).starts_with("transmission=1 ranked=1 dominated=1 refused=0\nrole=ranked time=2 "));
    assert!(board(1).contains("transmission=2 ranked=1 dominated=0 refused=0\nrole=ranked time=3600000000000 "));
    assert!(board(0).contains("signers=00000006") && board(1).contains("signers=00000006"));
}

#[test]
fn the_eight_latest_of_nine() {
    let board = board_of(&nine());
    assert_eq!(board.matches("transmission=").count(), 8);
    let times: Vec<&str> = board.lines().filter(|l| l.starts_with("role")).map(|l| l.split(' ').nth(1).unwrap()).collect();
    assert_eq!(times[0], "time=893");
    assert_eq!(times[7], "time=900");
    assert!(board.starts_with("transmission=1 "));
}

#[test]
fn a_dispute_settled_by_a_conviction() {
    let all = cases();
    let of = |name: &str| board_of(&all.iter().find(|c| c.0 == name).unwrap().1);
    assert_eq!(of("disputed"), "transmissions=0\n");
    assert!(of("settled").contains("role=ranked"));
}

/// Sessions without operations, and without a board.
#[test]
fn a_quiet_aircraft() {
    let all = cases();
    let of = |name: &str| session(all.iter().find(|c| c.0 == name).unwrap().1.as_bytes());
    assert_eq!(of("empty"), "transmissions=0\n");
    assert_eq!(of("blank"), "refused=11 line=1\n");
    assert_eq!(of("only-convicted"), "answer=0\ntransmissions=0\n");
    assert_eq!(of("malformed"), "answer=3\nanswer=3\nanswer=3\ntransmissions=0\n");
    assert_eq!(of("all-struck"), "answer=0\nanswer=0\nanswer=0\nanswer=4\ntransmissions=0\n");
    assert_eq!(of("nothing-counts"), "answer=0\ntransmissions=0\n");
    assert!(all.iter().all(|(_, input)| {
        let out = session(input.as_bytes());
        !(out.contains("transmission=") && out.contains("transmissions=0"))
    }));
}

#[test]
fn each_kind_of_bad_line() {
    bad("\n", 1);
    bad("op=convict\n", 2);
    bad("op=convict\nengine=1", 2);
    bad("op=convict", 1);
    bad("op=convict\nengine=1\n\n", 3);
    bad("op=nothing\n", 1);
    bad("OP=convict\nengine=1\n", 1);
    bad(" op=convict\nengine=1\n", 1);
    bad("op=convict\nmodel=1\n", 2);
    for value in [
        "256",
        "01",
        "-0",
        "-1",
        "+1",
        "",
        " 1",
        "1 ",
        "1\r",
        "0x1",
        "99999999999999999999",
        "340282366920938463463374607431768211456",
    ] {
        bad(&format!("op=convict\nengine={value}\n"), 2);
    }
    bad(&format!("op=convict\nengine={}\n", "1".repeat(60_000)), 2);
    let report = Report::new(1, &[1], 0).text();
    for (line, from, to) in [
        (3, "time=1000", "time=18446744073709551616"),
        (4, "lat=0", "lat=2147483648"),
        (4, "lat=0", "lat=-2147483649"),
        (4, "lat=0", "lat=00"),
        (6, "height=1500", "height=None"),
        (6, "height=1500", "height="),
        (7, "message=8d", "message=8D"),
        (7, "message=8d", "message=8d00"),
        (8, "tags=1", "tags="),
        (8, "tags=1", "tags=none"),
        (8, "tags=1", "tags=1,"),
        (8, "tags=1", "tags=1,2,3,4,5,6,7,8,9,10,11,12,13,14,15,16,17,18,19,20,21,22,23,24,25"),
        (9, "used=1", "used=4294967296"),
        (10, "models=none", "models="),
        (10, "models=none", "models=1,2,3,4,5"),
        (10, "models=none", "models=256"),
        (11, "spec=0", "spec=65536"),
        (12, "cov=40", "cov=4"),
        (12, "cov=40", "cov=4g"),
    ] {
        bad(&report.replacen(from, to, 1), line);
        bad(&(worked() + &report.replacen(from, to, 1)), 29 + line);
    }
    bad(&worked().replace("inputs=00", "inputs=0"), 5);
    assert_eq!(session(&vec![b'\n'; 65_537]), "refused=12\n");
    assert_eq!(session(&vec![b'\n'; 65_536]), "refused=11 line=1\n");
}

#[test]
fn answers_that_are_not_bad_lines() {
    let all = cases();
    let of = |name: &str| answers(&all.iter().find(|c| c.0 == name).unwrap().1);
    assert_eq!(of("engines"), [2, 2, 0, 4, 9, 2]);
    assert_eq!(of("malformed"), [3, 3, 3]);
    let mut expected = vec![0; 96];
    expected.extend([5, 0]);
    assert_eq!(of("full"), expected);
}

#[test]
fn the_longest_board() {
    let input = longest();
    assert_eq!(answers(&input), vec![0; 96]);
    assert_eq!(board_of(&input).len(), 13_248);
    assert!(!board_of(&input).contains("chi2=none"));
    // `none` is twelve bytes shorter than digits, on each of 88 lines.
    assert_eq!(board_of(&crowded_unmeasurable()).len(), 13_248 - 12 * 88);
}

/// The chi-squares of a board, as they are written.
fn chi2s(board: &str) -> Vec<String> {
    board.lines().filter_map(|line| Some(line.split_once(" chi2=")?.1.to_string())).collect()
}

/// The sum is not finite, though there is a factor. At the fix's own place it is zero, and agrees.
#[test]
fn no_number_where_none_was_measured() {
    let [here, same, away] = unmeasurable();
    let board = board_of(&(here.text() + &same.text() + &away.text()));
    let lines = [
        "transmission=1 ranked=1 dominated=1 refused=1",
        "role=ranked time=1000 lat=0 lon=0 height=2 weight=2 signers=00000004",
        "role=dominated time=1000 lat=0 lon=0 height=2 weight=1 signers=00000002",
        "role=refused time=1000 lat=1 lon=0 height=2 weight=3 signers=00000008 chi2=none",
    ];
    assert_eq!(board.lines().collect::<Vec<_>>(), lines);
    assert!(preview_of(&(here.text() + &away.text()), 2).ends_with(" chi2=none\n"));
}

/// Infinities and NaNs in a covariance have no factor. Its own chi-square a refused fix gets from the smaller fix's alone.
#[test]
fn covariances_without_a_factor() {
    let covariances = [ZERO.to_string(), "7ff8000000000001".repeat(6), "7ff0000000000000".repeat(6), flat(-100.0), flat(-0.0)];
    for cov in &covariances {
        let small = Report { cov: cov.clone(), ..Report::new(1, &[1], 0) };
        assert_eq!(chi2s(&board_of(&(small.text() + &Report::new(2, &[1, 2], 0).text()))), ["none"], "{cov}");
        let large = Report { cov: cov.clone(), ..Report::new(2, &[1, 2], 5400) };
        let chi2 = chi2s(&board_of(&(Report::new(1, &[1], 0).text() + &large.text())));
        assert_eq!(chi2, ["4041d3951c37e7a3"], "{cov}");
    }
}

/// Two transmissions, one with a refusal that was measured and one with a refusal that was not; a preview without either.
#[test]
fn a_number_and_none_on_one_board() {
    let far = Report { time: 2000, ..Report::new(4, &[7], 0) };
    let [small, _, large] = nested();
    let none = Report { cov: ZERO.to_string(), ..far.clone() }.text()
        + &Report { engine: 5, tags: "7,8".to_string(), used: 3, ..far }.text();
    let input = small.text() + &Report { engine: 2, ..large }.text() + &none;
    assert_eq!(chi2s(&board_of(&input)), ["4041d3951c37e7a3", "none"]);
    assert_eq!(chi2s(&preview_of(&input, 2)), ["none"]);
    assert_eq!(chi2s(&preview_of(&input, 5)), ["4041d3951c37e7a3"]);
}

#[test]
fn refusals_leave_the_memory_alone() {
    let mut memory = vec![0u8; SIZE];
    memory[4] = 1;
    memory[8] = 32;
    let before = memory.clone();
    assert_eq!(register::report(&mut memory, 99, &[]), 1);
    assert_eq!(register::summary(&mut memory, 99, 99, 0, &[]), 1);
    assert_eq!(register::convict(MANAGER, &mut memory, 99), 1);
    assert_eq!(board::board(MANAGER, &memory, &mut []), 1);
    for (desk, convicted, previewed, drawn) in [(0, 16, 16, 1), (1, 16, 1, 1), (2, 1, 1, 1), (3, 15, 15, 15), (258, 15, 15, 15), (u32::MAX, 15, 15, 15)] {
        assert_eq!(register::convict(desk, &mut memory, 99), convicted);
        assert_eq!(board::preview(desk, &memory, 99, &mut []), previewed);
        assert_eq!(board::board(desk, &memory, &mut []), drawn);
    }
    assert_eq!(memory, before);
    let mut fresh = vec![0u8; SIZE];
    assert_eq!(board::board(MANAGER, &fresh, &mut [0; 16_383]), 10);
    assert_eq!(board::board(MANAGER, &fresh, &mut [7; 16_384]), 0);
    assert_eq!(register::report(&mut fresh, 32, &[]), 2);
    assert_eq!(register::report(&mut fresh, 31, &[0; 221]), 3);
    assert_eq!(register::summary(&mut fresh, 31, 63, 0, &[0; 31]), 9);
    assert_eq!(fresh, vec![0u8; SIZE]);
    assert!(Register::read(&fresh[1..]).is_none());
}

/// What a preview of an engine shows after a session. Past the text the output stays as it was.
fn preview_of(input: &str, engine: u32) -> String {
    let memory = register_after(input.as_bytes()).expect("good lines");
    let mut out = vec![7u8; board::ROOM];
    let length = board::preview(MANAGER, &memory, engine, &mut out);
    assert!(out[length..].iter().all(|&b| b == 7), "{input}");
    String::from_utf8(out[..length].to_vec()).expect("text")
}

/// Refused as the conviction is, then as the board is. The register has a board, so that something could be written.
#[test]
fn refusals_of_a_preview() {
    let shown = register_after(worked().as_bytes()).expect("good lines");
    let mut malformed = shown.clone();
    malformed[8] = 32;
    for (memory, engine, room, answer) in [
        (&malformed[..], 1, 16_384, 1),
        (&malformed, 1, 16_383, 1),
        (&malformed, 32, 16_384, 1),
        (&malformed, 32, 0, 1),
        (&shown[1..], 1, 16_384, 1),
        (&[], 32, 0, 1),
        (&shown, 32, 16_384, 2),
        (&shown, 32, 16_383, 2),
        (&shown, 32, 0, 2),
        (&shown, 255, 16_384, 2),
        (&shown, 256, 16_384, 2),
        (&shown, u32::MAX, 16_384, 2),
        (&shown, 31, 16_383, 10),
        (&shown, 2, 0, 10),
    ] {
        let mut out = vec![7u8; room];
        assert_eq!(board::preview(MANAGER, memory, engine, &mut out), answer, "{engine} {room}");
        assert!(out.iter().all(|&b| b == 7), "{engine} {room}");
    }
}

#[test]
fn previews_of_the_worked_session() {
    let first = "role=ranked time=1000 lat=500000000 lon=100000000 height=2 weight=2 signers=00000002\n";
    let second = "role=refused time=1000 lat=500000000 lon=100000000 height=none weight=3 signers=00000004 chi2=none\n";
    let alone = format!("transmission=1 ranked=1 dominated=0 refused=0\n{first}");
    assert_eq!(preview_of(&worked(), 2), alone);
    // The only summary is engine 1's: without it the other's record does not count, and nothing is written.
    assert_eq!(preview_of(&worked(), 1), "");
    // Engines of which nothing is held.
    for idle in [0, 3, 31] {
        assert_eq!(preview_of(&worked(), idle), format!("transmission=1 ranked=1 dominated=0 refused=1\n{first}{second}"));
    }
    // One that is convicted: the present board.
    assert_eq!(preview_of(&(worked() + &convict(2)), 2), alone);
    assert_eq!(preview_of(&(worked() + &convict(1)), 1), "");
    // A fresh register has no board, and no preview.
    assert_eq!(preview_of("", 5), "");
}

#[test]
fn a_crew_sees_positions() {
    let memory = register_after(worked().as_bytes()).expect("good lines");
    let mut out = vec![7u8; board::ROOM];
    let length = board::board(CREW, &memory, &mut out);
    let line = "role=ranked time=1000 lat=500000000 lon=100000000 height=2 weight=2 signers=00000002\n";
    assert_eq!(str::from_utf8(&out[..length]).expect("text"), format!("transmission=1\n{line}"));
    assert_eq!(board::board(CREW, &vec![0; SIZE], &mut out), 0);
    for engine in [0, 31, 32] {
        assert_eq!(board::preview(CREW, &memory, engine, &mut out), 16);
    }
}

#[test]
fn a_dispute_settled_by_a_preview() {
    let (_, input) = cases().into_iter().find(|c| c.0 == "disputed").unwrap();
    let line = "role=ranked time=1000 lat=0 lon=0 height=2 weight=1 signers=00000002\n";
    assert_eq!(preview_of(&input, 2), format!("transmission=1 ranked=1 dominated=0 refused=0\n{line}"));
    // With engine 1 the only record goes, and with an idle one the dispute stays.
    assert_eq!(preview_of(&input, 1), "");
    assert_eq!(preview_of(&input, 3), "");
}

#[test]
fn a_preview_without_the_representative() {
    let (_, input) = cases().into_iter().find(|c| c.0 == "one-identity-two-positions").unwrap();
    let board = |lat: u32, signers: u32| {
        format!(
            "transmission=1 ranked=1 dominated=0 refused=0\n\
             role=ranked time=1000 lat={lat} lon=0 height=2 weight=1 signers={signers:08x}\n"
        )
    };
    assert_eq!(preview_of(&input, 0), board(0, 6));
    assert_eq!(preview_of(&input, 1), board(0, 4));
    assert_eq!(preview_of(&input, 2), board(2700, 2));
}

#[test]
fn a_preview_without_a_signature() {
    let [small, _, _] = nested();
    let both = small.text() + &Report { engine: 2, ..small }.text();
    let line = "role=ranked time=1000 lat=0 lon=0 height=2 weight=1 signers=00000004\n";
    assert_eq!(preview_of(&both, 1), format!("transmission=1 ranked=1 dominated=0 refused=0\n{line}"));
}

/// For every case and engine, also in an output longer than it must be; the register stays as it is.
#[test]
fn a_preview_is_the_board_after_the_conviction() {
    let good = cases().into_iter().filter_map(|(name, input)| Some((name, register_after(input.as_bytes())?)));
    let mut tried = 0;
    for (name, memory) in good {
        for engine in 0..32 {
            let mut copy = memory.clone();
            assert_eq!(register::convict(MANAGER, &mut copy, engine), 0);
            let (mut preview, mut drawn) = (vec![7u8; 20_000], vec![7u8; 20_000]);
            let before = memory.clone();
            let length = board::preview(ANALYST, &memory, engine, &mut preview);
            assert_eq!(length, board::board(MANAGER, &copy, &mut drawn), "{name} {engine}");
            assert!(preview == drawn && memory == before, "{name} {engine}");
            tried += 1;
        }
    }
    assert!(tried >= 20 * 32, "{tried}");
}

/// Exact halves of a metre.
#[test]
fn whole_metres() {
    for (height, whole) in [
        (499, 0),
        (500, 0),
        (501, 1),
        (1_499, 1),
        (1_500, 2),
        (2_500, 2),
        (2_501, 3),
        (-499, 0),
        (-500, 0),
        (-501, -1),
        (-1_500, -2),
        (-2_500, -2),
        (2_147_483_500, 2_147_484),
        (i32::MAX, 2_147_484),
        (i32::MIN, -2_147_484),
    ] {
        assert_eq!(metres(height), whole, "{height} mm");
    }
}

#[test]
fn exact_halves_on_a_board() {
    let out = session(halves().as_bytes());
    let written: Vec<&str> = out.split(' ').filter_map(|word| word.strip_prefix("height=")).collect();
    assert_eq!(written, ["0", "2", "2", "0", "-2", "-2", "2147484", "-2147484"]);
}

/// What is printed for the engines of a session that have something.
fn monthly_of(input: &str) -> Vec<String> {
    let memory = register_after(input.as_bytes()).unwrap();
    let text = crate::monthly::monthly(&memory);
    assert_eq!(text.lines().count(), 32);
    text.lines().filter(|line| !line.contains(" held=0 ")).map(str::to_string).collect()
}

#[test]
fn each_record_has_one_ending() {
    let [s, m, l] = nested();
    let of = |engine: u32, report: &Report| Report { engine, ..report.clone() }.text();
    // The same a little further on: it has the identity of the middle one, which comes first.
    let again = Report { lat: 2701, ..m.clone() };
    let uncounted = Report { models: "9".to_string(), ..s.clone() };
    let input = of(1, &s) + &of(2, &m) + &of(3, &l) + &of(3, &again) + &of(4, &again) + &of(4, &uncounted);
    assert_eq!(
        monthly_of(&input),
        [
            "engine=1 held=1 ranked=0 dominated=1 refused=0 other=0 uncounted=0",
            "engine=2 held=1 ranked=1 dominated=0 refused=0 other=0 uncounted=0",
            "engine=3 held=2 ranked=0 dominated=0 refused=1 other=1 uncounted=0",
            "engine=4 held=2 ranked=0 dominated=0 refused=0 other=1 uncounted=1",
        ]
    );
}

#[test]
fn all_transmissions_are_counted() {
    assert_eq!(monthly_of(&nine()), ["engine=1 held=9 ranked=9 dominated=0 refused=0 other=0 uncounted=0"]);
}

#[test]
fn what_is_no_register_has_no_numbers() {
    for size in [0, SIZE - 1, SIZE + 1] {
        assert_eq!(crate::monthly::monthly(&vec![0; size]), "refused=1\n");
    }
    assert!(crate::monthly::monthly(&[0; SIZE]).starts_with("engine=0 held=0 "));
}
