//! Lengths of the three buffers that are lent for planes, right and wrong.

/// Each length as it is, a byte short, or longer, in all 27 ways. As they are comes first.
pub fn all(lengths: [usize; 3]) -> impl Iterator<Item = [usize; 3]> {
    (0..27).map(move |way| {
        let ways = [way % 3, way / 3 % 3, way / 9];
        [0, 1, 2].map(|plane| changed(lengths[plane], ways[plane]))
    })
}

/// A length as it is (0), a byte short (1), or longer.
pub fn changed(length: usize, way: u64) -> usize {
    match way {
        0 => length,
        1 => length.saturating_sub(1),
        _ => length + 5,
    }
}

#[cfg(test)]
mod tests {
    use super::*;

    #[test]
    fn there_are_27_ways() {
        let all: Vec<[usize; 3]> = all([9; 3]).collect();
        assert_eq!((all.len(), all[0]), (27, [9; 3]));
        assert_eq!(all.iter().filter(|lengths| lengths.contains(&8)).count(), 19);
    }
}
