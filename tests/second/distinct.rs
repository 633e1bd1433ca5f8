//! Names of a section that do not repeat: each is compared with each later one.

use crate::book::Section;

/// The bytes after the section; nothing where an entry is broken or a name repeats.
pub fn after_distinct<'a>(mut walk: Section<'a>) -> Option<&'a [u8]> {
    while walk.left > 0 {
        let (name, _) = walk.next()?;
        if walk.clone().any(|(later, _)| later == name) {
            return None;
        }
    }
    Some(walk.rest)
}
