//! Whether a run had what it is there for.

/// Stops where a kind did not come, unless there are so few lists that none may have come. The kinds have a name for one of them.
pub fn all((name, kinds): (&str, impl IntoIterator<Item = &'static str>), came: impl Fn(&str) -> bool, lists: u64) {
    if lists >= 4_000 && !kinds.into_iter().all(came) {
        println!("NOT TRIED: {name}");
        std::process::exit(1);
    }
}
