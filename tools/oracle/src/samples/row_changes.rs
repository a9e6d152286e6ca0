//! Rows with their versions, and what is made of one row: cut, longer, with other bytes or another version.

pub type Rows = Vec<(u32, Vec<u8>)>;

/// Other versions, with a row and without one.
pub fn versions(row: &[u8]) -> Rows {
    let versions = [0, 1, 2, 4, 259, u32::MAX];
    let mut rows: Rows = versions.map(|version| (version, row.to_vec())).to_vec();
    rows.push((2, Vec::new()));
    rows
}

pub fn set(row: &[u8], at: usize, bytes: &[u8]) -> (u32, Vec<u8>) {
    let mut row = row.to_vec();
    row[at..at + bytes.len()].copy_from_slice(bytes);
    (3, row)
}

pub fn cut(row: &[u8], sizes: impl IntoIterator<Item = usize>) -> Rows {
    let cut = |size| (3, row[..size].to_vec());
    sizes.into_iter().map(cut).collect()
}

pub fn longer(row: &[u8], more: &[u8]) -> (u32, Vec<u8>) {
    (3, [row, more].concat())
}
