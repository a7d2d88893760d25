//! Records in the form of document 02, P6: "a two-byte length of the body, a
//! two-byte kind, both little-endian, then the body".

/// Kind and body of every record; none if the last one is cut.
pub fn records(mut rest: &[u8]) -> Option<Vec<(u16, &[u8])>> {
    let mut records = Vec::new();
    while !rest.is_empty() {
        let [low, high, kind_low, kind_high, after @ ..] = rest else { return None };
        let length = usize::from(u16::from_le_bytes([*low, *high]));
        if after.len() < length {
            return None;
        }
        records.push((u16::from_le_bytes([*kind_low, *kind_high]), &after[..length]));
        rest = &after[length..];
    }
    Some(records)
}
