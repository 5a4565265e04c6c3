//! The fixes of a board as values: the library's beside the peer's, and which kinds of them came up.

use crate::binding;
use peer::board::{self, FIXES_ROOM, SHOWN};

const MALFORMED: &str = "fixes of a board refused with 1";
const SMALL: &str = "fixes of a board refused with 10";
const NONE: &str = "fixes of a board, none";
const RANKED: &str = "fixes of a board, all ranked";
const DOMINATED: &str = "fixes of a board with a dominated one";
const REFUSED: &str = "fixes of a board with a refused one";
const UNMEASURED: &str = "fixes of a board with one that is refused without a chi-square";
const AGAINST_REFUSED: &str = "fixes of a board with one that is refused against a refused one";
const LATER: &str = "fixes of a board with one refused in a transmission that is not the first";

/// The kinds that a run must have, with a name for one of them.
pub const KINDS: (&str, [&str; 9]) =
    ("a kind of a board's fixes", [MALFORMED, SMALL, NONE, RANKED, DOMINATED, REFUSED, UNMEASURED, AGAINST_REFUSED, LATER]);

fn kinds(bytes: &[u8]) -> Vec<&'static str> {
    let all: Vec<&[u8]> = bytes.chunks(SHOWN).collect();
    let refused = || all.iter().filter(|one| one[1] == 2);
    let kinds = [
        (NONE, all.is_empty()),
        (RANKED, !all.is_empty() && all.iter().all(|one| one[1] == 0)),
        (DOMINATED, all.iter().any(|one| one[1] == 1)),
        (REFUSED, refused().next().is_some()),
        (UNMEASURED, refused().any(|one| one[SHOWN - 9] == 0)),
        (AGAINST_REFUSED, refused().any(|one| all[usize::from(one[3])][1] == 2)),
        (LATER, refused().any(|one| one[0] > 1)),
    ];
    kinds.into_iter().filter(|kind| kind.1).map(|kind| kind.0).collect()
}

/// On two memories that are alike, into outputs of every room that is told apart: what is counted of them, or the difference in words.
pub fn compare(a: &[u8], b: &[u8]) -> Result<Vec<&'static str>, String> {
    let mut came = Vec::new();
    for room in [0, FIXES_ROOM - 1, FIXES_ROOM, FIXES_ROOM + 1] {
        let (mut ours, mut theirs) = (vec![7u8; room], vec![7u8; room]);
        let (x, y) = (binding::fixes(a, &mut ours), board::fixes(b, &mut theirs));
        if x != y || ours != theirs {
            return Err(format!("fixes of the board into {room} bytes: library {x}, peer {y}"));
        }
        came.extend(match x {
            1 => vec![MALFORMED],
            10 => vec![SMALL],
            _ => kinds(&ours[..x]),
        });
    }
    Ok(came)
}
