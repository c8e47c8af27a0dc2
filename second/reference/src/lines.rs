//! What the small program prints (document 01, "What the station handles").

use crate::map::{check, Owner};

/// The longest map the small program takes.
pub const LONGEST_MAP: usize = 65_536;

/// One line per fragment, ascending: owner or `free`, disc bit, length; or
/// `refused`, number, zone. A longer map is treated as refusal 1.
pub fn lines(map: &[u8]) -> String {
    if map.len() > LONGEST_MAP {
        return "refused 1 0\n".to_string();
    }
    let checked = match check(map) {
        Ok(checked) => checked,
        Err(refusal) => return format!("refused {} {}\n", refusal.number, refusal.zone),
    };
    let mut text = String::new();
    for fragment in checked.fragments() {
        let (disc_bit, length) = checked.pair(&fragment);
        match fragment.owner {
            Owner::Free => text += &format!("free {disc_bit} {length}\n"),
            Owner::Object(id) => text += &format!("{id} {disc_bit} {length}\n"),
        }
    }
    text
}
