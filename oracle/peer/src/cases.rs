//! Session files, each with a name: what the tests look at, and what `peer cases FOLDER` writes out with the expected output.

/// A report, as a session writes it.
#[derive(Clone)]
pub struct Report {
    pub engine: u32,
    pub time: u64,
    pub lat: i64,
    pub lon: i64,
    pub height: String,
    pub message: String,
    pub tags: String,
    pub used: u32,
    pub models: String,
    pub spec: u32,
    pub cov: String,
}

pub const ZERO: &str = "000000000000000000000000000000000000000000000000000000000000000000000000000000000000000000000000";

/// The same variance on the whole diagonal.
pub fn flat(variance: f64) -> String {
    format!("{0:016x}{1:016x}{1:016x}{0:016x}{1:016x}{0:016x}", variance.to_bits(), 0)
}

/// diag(100, 100, 100).
pub fn hundred() -> String {
    flat(100.0)
}

impl Report {
    /// Tags 1, 2, .. as listed, all used, at latitude `step`.
    pub fn new(engine: u32, tags: &[u64], step: i64) -> Self {
        Self {
            engine,
            time: 1000,
            lat: step,
            lon: 0,
            height: "1500".to_string(),
            message: "8d000000000000".to_string(),
            tags: tags.iter().map(u64::to_string).collect::<Vec<_>>().join(","),
            used: (1 << tags.len()) - 1,
            models: "none".to_string(),
            spec: 0,
            cov: hundred(),
        }
    }

    pub fn text(&self) -> String {
        let Self { engine, time, lat, lon, height, message, tags, used, models, spec, cov } = self;
        format!(
            "op=report\nengine={engine}\ntime={time}\nlat={lat}\nlon={lon}\nheight={height}\nmessage={message}\ntags={tags}\n\
             used={used}\nmodels={models}\nspec={spec}\ncov={cov}\n"
        )
    }
}

pub fn summary(engine: u32, model: u32, spec: u32, first: u8) -> String {
    format!("op=summary\nengine={engine}\nmodel={model}\nspec={spec}\ninputs={first:02x}{}\n", "0".repeat(62))
}

pub fn convict(engine: u32) -> String {
    format!("op=convict\nengine={engine}\n")
}

/// The specification's own example.
pub fn worked() -> String {
    let first = Report {
        engine: 1,
        lat: 500_000_000,
        lon: 100_000_000,
        models: "5".to_string(),
        spec: 3,
        cov: ZERO.to_string(),
        ..Report::new(1, &[11, 12], 0)
    };
    let second = Report { engine: 2, height: "none".to_string(), tags: "11,12,13".to_string(), used: 7, ..first.clone() };
    summary(1, 5, 3, 0) + &first.text() + &second.text()
}

/// S in M in L: neighbours agree, the ends do not.
pub fn nested() -> [Report; 3] {
    [Report::new(1, &[1], 0), Report::new(1, &[1, 2], 2700), Report::new(1, &[1, 2, 3], 5400)]
}

fn texts(reports: &[Report]) -> String {
    reports.iter().map(Report::text).collect()
}

/// The second room gets the first's calls in another order, some twice, and one of them late.
pub fn rooms() -> (String, String) {
    let [s, m, l] = nested();
    let other = Report { engine: 2, ..m.clone() };
    let far = Report { time: 2000, message: "8d0000000000ff00000000000000".to_string(), ..Report::new(3, &[9], 77) };
    let one = texts(&[s.clone(), m.clone(), l.clone(), other.clone(), far.clone()]) + &summary(4, 7, 1, 1);
    let two = summary(4, 7, 1, 1) + &texts(&[far.clone(), l.clone(), l, other, s.clone(), m.clone(), s, far]);
    (one, two)
}

/// Nine transmissions, of which eight are shown.
pub fn nine() -> String {
    (0..9).map(|i| Report { time: 900 - i, ..Report::new(1, &[100 + i], 0) }.text()).collect()
}

/// Exact halves of a metre on both sides of zero, and the least height, each a transmission.
pub fn halves() -> String {
    let heights = [500, 1_500, 2_500, -500, -1_500, -2_500, 2_147_483_500, i32::MIN];
    let one = |(i, height): (u64, i32)| Report { time: i, height: height.to_string(), ..Report::new(1, &[i + 1], 0) }.text();
    (0..).zip(heights).map(one).collect()
}

/// A small fix at one time, and one with a further tag, at the same place, at another.
pub fn apart(small: u64, large: u64) -> [Report; 2] {
    [Report { time: small, ..Report::new(1, &[1], 0) }, Report { time: large, ..Report::new(2, &[1, 2], 0) }]
}

/// An hour, in nanoseconds.
pub const HOUR: u64 = 3_600_000_000_000;

/// Fixes at 0, 2 and 4 seconds, the second with a tag of each other.
pub fn chain() -> [Report; 3] {
    let at = |tags: &[u64], seconds: u64| Report { time: seconds * 1_000_000_000, ..Report::new(1, tags, 0) };
    [at(&[1], 0), at(&[1, 2], 2), at(&[2], 4)]
}

/// 97 records, the last one too many; then a held one by another engine.
pub fn full() -> String {
    let one = |i: u64| Report { time: i, cov: ZERO.to_string(), ..Report::new(1, &[1], 0) };
    (0..97).map(|i| one(i).text()).collect::<String>() + &Report { engine: 2, ..one(5) }.text()
}

/// Eight transmissions of one ranked and eleven refused each, with long fields.
fn crowded(cov: &str) -> String {
    let mut out = String::new();
    for t in 0..8u64 {
        for i in 0..12u64 {
            // Ten tags; or those and one more, somewhere else: a superset.
            let tags: Vec<u64> = (1..=10).chain((i > 0).then_some(100 + i)).collect();
            let long = Report {
                time: u64::MAX,
                lat: i64::from(i32::MIN) + i64::from(i > 0),
                lon: i32::MIN.into(),
                height: i32::MIN.to_string(),
                message: format!("8d0000000000{t:02x}"),
                cov: cov.to_string(),
                ..Report::new(31, &tags, 0)
            };
            out += &long.text();
        }
    }
    out
}

/// The longest board, every field at its longest: the variance is so small that each superset is outside, and yet measured.
pub fn longest() -> String {
    crowded(&flat(1e-9))
}

/// The same, where nothing is measured.
pub fn crowded_unmeasurable() -> String {
    crowded(ZERO)
}

/// A fix with a variance of 1e-320, one with a further tag at the same place, and one with two further 1e-7 degree away, which is too
/// far to be measured.
pub fn unmeasurable() -> [Report; 3] {
    let tiny = |engine: u32, tags: &[u64], step: i64| Report { cov: flat(1e-320), ..Report::new(engine, tags, step) };
    [tiny(1, &[1], 0), tiny(2, &[1, 2], 0), tiny(3, &[1, 2, 3], 1)]
}

/// Every case by name.
pub fn cases() -> Vec<(&'static str, String)> {
    let [s, m, l] = nested();
    let (one, two) = rooms();
    let at = |engine: u32, step: i64| Report::new(engine, &[1], step);
    let cites = |engine: u32| Report { models: "5".to_string(), ..Report::new(engine, &[1], 0) };
    vec![
        ("worked", worked()),
        ("nested", texts(&[s.clone(), m.clone(), l.clone()])),
        ("nested-other-order", texts(&[l.clone(), s.clone(), m.clone()])),
        ("room-one", one),
        ("room-two", two),
        (
            "convicted-half-way",
            texts(&[s, Report { engine: 2, ..m }]) + &convict(1) + &texts(&[Report { engine: 2, ..l }, at(1, 0)]),
        ),
        ("one-identity-two-positions", texts(&[at(1, 2700), at(2, 0)])),
        ("tied-to-two", texts(&[Report::new(1, &[1], 0), Report::new(1, &[2], 0), Report::new(1, &[1, 2], 0)])),
        ("nine", nine()),
        ("halves", halves()),
        ("restarted", texts(&apart(0, HOUR))),
        ("chain", texts(&chain())),
        ("disputed", summary(1, 5, 0, 1) + &cites(1).text() + &summary(2, 5, 0, 2)),
        ("settled", summary(1, 5, 0, 1) + &cites(1).text() + &summary(2, 5, 0, 2) + &convict(2)),
        ("full", full()),
        (
            "engines",
            convict(255) + &convict(32) + &convict(31) + &summary(31, 1, 0, 0) + &summary(30, 64, 0, 0) + &at(33, 0).text(),
        ),
        (
            "malformed",
            texts(&[
                Report { tags: "2,1".to_string(), used: 3, ..at(1, 0) },
                Report { used: 2, ..at(1, 0) },
                Report { models: "64".to_string(), ..at(1, 0) },
            ]),
        ),
        ("longest", longest()),
        ("crowded-unmeasurable", crowded_unmeasurable()),
        ("unmeasurable", texts(&unmeasurable())),
        ("nothing-counts", cites(1).text()),
        ("empty", String::new()),
        ("blank", "\n".to_string()),
        ("only-convicted", convict(1)),
        ("all-struck", texts(&[at(1, 0), at(1, 2700)]) + &convict(1) + &at(1, 0).text()),
        ("bad-line", worked().replace("spec=3\ninputs", "spec=03\ninputs")),
        ("cut-short", worked() + "op=convict\n"),
        ("no-line-feed", worked() + "op=convict\nengine=1"),
        ("too-long", convict(1).repeat(65_537 / 20 + 1)),
    ]
}
