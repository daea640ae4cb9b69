//! Little-endian numbers, and pieces that begin with their own length.

pub(crate) fn pair(bytes: &[u8], at: usize) -> u16 {
    u16::from_le_bytes([bytes[at], bytes[at + 1]])
}

pub(crate) fn double(bytes: &[u8], at: usize) -> u32 {
    u32::from_le_bytes(bytes[at..at + 4].try_into().expect("four bytes"))
}

pub(crate) fn word(bytes: &[u8], at: usize) -> u64 {
    u64::from_le_bytes(bytes[at..at + 8].try_into().expect("eight bytes"))
}

/// Takes the first piece, length included, if it is there whole and has at least so many bytes.
pub(crate) fn take_whole<'a>(rest: &mut &'a [u8], least: usize) -> Option<&'a [u8]> {
    if rest.len() < least.max(2) {
        return None;
    }
    let length = usize::from(pair(rest, 0));
    if length < least || length > rest.len() {
        return None;
    }
    let (whole, others) = rest.split_at(length);
    *rest = others;
    Some(whole)
}
