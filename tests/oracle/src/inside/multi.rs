//! Child module of the copied `multi.rs`: reaches its private items.

/// Read a version id from one part
pub(crate) fn version_id(part: &str) -> Option<u16> {
    let read = super::parse_version_id(&mut std::iter::once(part));
    // a part that is there is a number or refused, never missing
    read.ok().map(|id| id.expect("one part"))
}
