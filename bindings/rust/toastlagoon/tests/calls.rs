//! What the types promise over the calls: refusals by name, stored bytes, and each call once. Numbers are those of
//! examples/c/expected, which a C program prints too.

use toastlagoon::{
    Agreement, Claim, Covariance, Desk, Effect, Error, Fault, Fields, Item, Record, Register, Role, Track, Verdict, agreement,
    blake2s256, decide, decide_any, horizontal_sigma, root, version,
};

const STEP: i32 = 2_700;

fn fields(tags: &[u64], lat: i32) -> Fields<'_> {
    Fields {
        time: 1_000,
        lat,
        height: Some(1_500),
        message: &[0x8d, 0, 0, 0, 0, 0, 0],
        tags,
        used: (1 << tags.len()) - 1,
        covariance: Covariance::diagonal(100.0),
        ..Fields::default()
    }
}

fn record(tags: u64, lat: i32) -> Record {
    Record::new(&fields(&Vec::from_iter(1..=tags), lat)).unwrap()
}

fn waiting_record() -> Record {
    Record::new(&Fields { models: &[5], spec: 3, ..fields(&[1, 2], 0) }).unwrap()
}

#[test]
fn the_words_are_the_library_s() {
    assert_eq!(Error::Full.to_string(), "full");
    assert_eq!(Error::Other(99).to_string(), "no answer of the library");
    assert_eq!(Error::EngineConvicted.number(), 4);
    let error: Box<dyn std::error::Error> = Error::NoRight.into();
    assert_eq!(error.to_string(), "desk lacks the right");
}

#[test]
fn a_record_says_what_it_was_made_of() {
    let fields = Fields { lon: -5, models: &[5, 5], spec: 3, height: None, ..fields(&[7, 9], -1) };
    let record = Record::new(&fields).unwrap();
    assert_eq!(record.tags().collect::<Vec<_>>(), [7, 9]);
    assert_eq!((record.time(), record.lat(), record.lon(), record.height()), (1_000, -1, -5, None));
    assert_eq!((record.message(), record.models(), record.spec(), record.used()), (fields.message, fields.models, 3, 3));
    assert_eq!(record.covariance(), fields.covariance);
    assert_eq!(Record::from_bytes(record.as_bytes()), Ok(record));
}

#[test]
fn bytes_that_are_no_record_say_why() {
    let good = *record(2, 0).as_bytes();
    assert_eq!(Fault::of(&good), None);
    assert_eq!(Fault::of(&good[1..]), Some(Fault::Length));
    assert_eq!(Fault::of(&[0; 288]), Some(Fault::MessageLength));
    let mut swapped = good;
    swapped[41] = 2;
    assert_eq!(Fault::of(&swapped), Some(Fault::TagOrder));
    assert_eq!(Record::from_bytes(&swapped), Err(Error::MalformedRecord));
}

#[test]
fn the_fixes_of_a_board_are_its_lines() {
    let mut register = Register::new();
    assert_eq!(register.fixes(), []);
    for (tags, lat, engine) in [(1, 0, 1), (2, 2_700, 2), (3, 27_000_000, 3)] {
        register.report(engine, &record(tags, lat)).unwrap();
    }
    let fixes = register.fixes();
    let board = register.board(Desk::Manager).unwrap();
    let records: Vec<_> = register.records().collect();
    let lines: Vec<_> = board.as_str().lines().filter(|line| line.starts_with("role=")).collect();
    assert_eq!(fixes.len(), lines.len());
    for (fix, line) in fixes.iter().zip(lines) {
        let record = &records[fix.place].record;
        let role = match fix.role {
            Role::Ranked => "role=ranked",
            Role::Dominated => "role=dominated",
            Role::Refused => "role=refused",
        };
        assert!(line.starts_with(&format!("{role} time={} lat={} lon={} ", record.time(), record.lat(), record.lon())));
        assert!(line.contains(&format!("signers={:08x}", fix.signers)));
        assert_eq!(fix.identity, record.identity(&register.inputs(record).unwrap()).unwrap());
        if let Some(chi_square) = fix.chi_square {
            assert!(line.ends_with(&format!("chi2={:016x}", chi_square.to_bits())));
        }
    }
    let refused = fixes.iter().find(|fix| fix.role == Role::Refused).unwrap();
    let against = fixes[refused.against.unwrap()];
    assert!(records[against.place].record.tags().count() < records[refused.place].record.tags().count());
}

#[test]
fn what_no_record_says_is_refused() {
    let good = fields(&[1, 2], 0);
    for bad in [
        Fields { message: &[], ..good },
        Fields { tags: &[], ..good },
        Fields { tags: &[2, 1], ..good },
        Fields { used: 4, ..good },
        Fields { models: &[64], ..good },
        Fields { models: &[0; 5], ..good },
    ] {
        assert_eq!(Record::new(&bad), Err(Error::MalformedRecord));
    }
    assert_eq!(Record::from_bytes(&[]), Err(Error::MalformedRecord));
    assert_eq!(Record::from_bytes(&[0; 288]), Err(Error::MalformedRecord));
}

#[test]
fn a_register_is_stored_and_taken_back() {
    let mut register = Register::new();
    register.report(4, &record(2, STEP)).unwrap();
    register.summary(4, 5, 3, &[9; 32]).unwrap();
    assert_eq!(Register::from_bytes(register.as_bytes()), Ok(register.clone()));
    assert_eq!(Register::from_columns(&register.to_columns()), Ok(register.clone()));
    assert_eq!(Register::from_bytes(&[0; 3]), Err(Error::BadLength));
    assert_eq!(Register::from_columns(&[]), Err(Error::BadLength));
    let mut bytes = *register.as_bytes();
    bytes[6] = 97;
    assert_eq!(Register::from_bytes(&bytes), Err(Error::Malformed));
    let held: Vec<_> = register.records().collect();
    assert_eq!((held.len(), &held[0].record, held[0].signers), (1, &record(2, STEP), 1 << 4));
    let summary = register.summaries().next().unwrap();
    assert_eq!((summary.engine, summary.model, summary.spec, summary.inputs), (4, 5, 3, [9; 32]));
}

#[test]
fn desks_and_convictions() {
    let mut register = Register::new();
    register.report(4, &record(2, STEP)).unwrap();
    register.report(7, &record(2, STEP)).unwrap();
    assert_eq!(register.report(32, &record(2, STEP)), Err(Error::EngineOver31));
    assert_eq!(register.preview(Desk::Crew, 4), Err(Error::NoRight));
    assert_eq!(register.preview(Desk::Analyst, 32), Err(Error::EngineOver31));
    assert_eq!(register.convict(Desk::Analyst, 4), Err(Error::NoRight));
    let previewed = register.preview(Desk::Manager, 4).unwrap();
    register.convict(Desk::Manager, 4).unwrap();
    assert_eq!(register.board(Desk::Manager), Ok(previewed));
    assert_eq!(register.report(4, &record(2, STEP)), Err(Error::EngineConvicted));
    assert_eq!(register.convicted(), 1 << 4);
    let crew = register.board(Desk::Crew).unwrap();
    assert_eq!(crew.as_str(), "transmission=1\nrole=ranked time=1000 lat=2700 lon=0 height=2 weight=2 signers=00000080\n");
    assert!(Register::new().board(Desk::Crew).unwrap().is_empty());
}

#[test]
fn rooms_join() {
    let (mut north, mut south) = (Register::new(), Register::new());
    north.report(1, &record(1, 0)).unwrap();
    south.report(2, &record(1, 0)).unwrap();
    south.convict(Desk::Manager, 3).unwrap();
    let lacked = north.lacks(&south).unwrap();
    north.join(&lacked).unwrap();
    south.join(&north).unwrap();
    assert_eq!(north, south);
    assert_eq!(north.lacks(&south), Ok(Register::new()));
}

#[test]
fn a_withheld_record_says_why() {
    let (mut register, record) = (Register::new(), waiting_record());
    assert_eq!(register.inputs(&record), Err(Error::ModelMissing));
    register.summary(1, 5, 3, &[0; 32]).unwrap();
    let inputs = register.inputs(&record).unwrap();
    assert_ne!(record.identity(&inputs), record.identity(&[0; 32]));
    register.summary(2, 5, 3, &[1; 32]).unwrap();
    assert_eq!(register.inputs(&record), Err(Error::ModelDisputed));
    assert_eq!(register.summary(1, 64, 3, &[0; 32]), Err(Error::BadSummary));
}

#[test]
fn a_map_has_the_point() {
    let mut register = Register::new();
    register.report(1, &Record::new(&Fields { lon: -5, ..fields(&[1, 2], STEP) }).unwrap()).unwrap();
    assert!(register.map().unwrap().as_str().contains("[-0.0000005,0.0002700,1.500]"));
}

#[test]
fn a_fix_waits_beside_a_track() {
    let mut track = Track::new();
    assert_eq!(track.report(1, &waiting_record()), Ok(Effect::Waiting));
    let waiting: Vec<_> = track.shelf().waiting().collect();
    assert_eq!((waiting.len(), waiting[0].model, waiting[0].engine, &waiting[0].record), (1, 5, 1, &waiting_record()));
    assert_eq!(Track::from_bytes(track.as_bytes(), track.shelf().as_bytes()), Ok(track.clone()));
    assert_eq!(Track::from_bytes(track.as_bytes(), &[]), Err(Error::Malformed));
    track.summary(2, 5, 3, &[0; 32]).unwrap();
    assert_eq!(track.shelf().waiting().len(), 0);
    assert_eq!(track.report(1, &waiting_record()), Ok(Effect::Duplicate));
    assert_eq!(track.contested(), 0);
    assert!(track.listing().unwrap().as_str().contains("signers=00000002"));
    let alone = track.shelf().as_bytes().map(|byte| byte | 1);
    assert_eq!(Track::from_bytes(track.as_bytes(), &alone), Err(Error::Malformed));
    track.convict(2).unwrap();
    assert_eq!((track.convicted(), track.convict(32)), (1 << 2, Err(Error::EngineOver31)));
}

fn item(tags: u64, lat: i32) -> Item {
    let record = record(tags, lat);
    let identity = record.identity(&[0; 32]).unwrap();
    Item { record, inputs: [0; 32], identity, standing: 0, consistent: true, preferred: false, verified: Verdict::Unjudged }
}

#[test]
fn decisions() {
    let items = [item(1, 0), item(2, STEP), item(3, 2 * STEP)];
    let answer = decide(&items).unwrap();
    assert_eq!((&answer.ranked[..], &answer.dominated[..], answer.refusals.len()), (&[1][..], &[0][..], 1));
    let refusal = answer.refusals[0];
    assert_eq!((refusal.index, refusal.against, refusal.superseded), (2, 0, false));
    assert!(refusal.chi2.is_some_and(|chi2| chi2 > 16.266));
    let swapped = [items[2].clone(), items[1].clone(), items[0].clone()];
    assert_eq!(decide_any(&swapped).unwrap().ranked, [1]);
    assert_eq!(decide(&[items[0].clone(), items[0].clone()]), Err(Error::BadItems));
    assert_eq!(decide(&[]).unwrap(), Default::default());
}

#[test]
fn measures() {
    assert_eq!(version() / 1_000_000, 0);
    let hash: String = blake2s256(b"abc").iter().map(|byte| format!("{byte:02x}")).collect();
    assert_eq!(hash, "508c5e8c327c14e2e1a72ba34eeb452f37458b209ed63a294d999b4c86675982");
    assert_ne!(blake2s256(&[]), [0; 32]);
    assert_eq!(root(9.0), 3.0);
    assert_eq!(horizontal_sigma(&Covariance::diagonal(0.0)), 0.0);
    let claim = |lat, variance| Claim { lat, lon: 0, height: Some(1_500), covariance: Covariance::diagonal(variance) };
    assert!(matches!(agreement(&claim(0, 100.0), &claim(STEP, 100.0)), Agreement::Inside { .. }));
    assert!(matches!(agreement(&claim(0, 100.0), &claim(2 * STEP, 100.0)), Agreement::Outside { .. }));
    assert_eq!(agreement(&claim(0, 0.0), &claim(0, 100.0)), Agreement::Unmeasurable);
}
