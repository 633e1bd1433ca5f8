//! Names of a section that do not repeat, with a hash set in place of the second program's comparison of each with each.

use crate::book::Section;
use crate::set::Set;

/// The bytes after the section; nothing where an entry is broken or a name repeats.
pub fn after_distinct<'a>(mut walk: Section<'a>) -> Option<&'a [u8]> {
    let mut names = Set::new(walk.rest, walk.left as usize);
    while walk.left > 0 {
        let (name, _) = walk.next()?;
        if !names.insert(name) {
            return None;
        }
    }
    Some(walk.rest)
}
