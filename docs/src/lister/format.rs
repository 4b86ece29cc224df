//! The file format of the lister's cases: each case is its length in two bytes, big-endian, and
//! then its bytes. Replies are written one after another with nothing between.

use std::collections::HashSet;

/// All cases as the bytes of one file.
pub fn framed(cases: &[Vec<u8>]) -> Vec<u8> {
    let mut file = Vec::new();
    for case in cases {
        let length = u16::try_from(case.len()).expect("a case is too long for two bytes");
        file.extend_from_slice(&length.to_be_bytes());
        file.extend_from_slice(case);
    }
    file
}

/// The cases without repetitions, in the order of their first occurrence.
pub fn distinct(cases: Vec<Vec<u8>>) -> Vec<Vec<u8>> {
    let mut seen = HashSet::new();
    cases
        .into_iter()
        .filter(|case| seen.insert(case.clone()))
        .collect()
}
