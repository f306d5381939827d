//! Where two keys part (02's order 2).

/// The length of the common beginning: the bytes that are equal before the first that differs or either key's end.
pub fn common_length(left: &[u8], right: &[u8]) -> u64 {
    let mut length = 0;
    while length < left.len() && length < right.len() && left[length] == right[length] {
        length += 1;
    }
    length as u64
}
