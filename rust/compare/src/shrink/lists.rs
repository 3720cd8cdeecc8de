//! Shorter lists.

use std::ops::Range;

/// The list without each half of it, each quarter, and so on down to each item.
pub fn shorter<T: Clone>(list: &[T]) -> impl Iterator<Item = Vec<T>> + '_ {
    ranges(list.len()).map(|range| without(list, range))
}

/// Each half of a list of so many items, each quarter, and so on.
pub fn ranges(len: usize) -> impl Iterator<Item = Range<usize>> {
    let halves = |size: &usize| (*size > 1).then(|| size.div_ceil(2));
    let sizes = std::iter::successors(Some(len), halves);
    sizes.filter(|size| *size > 0).flat_map(move |size| {
        let starts = (0..len).step_by(size);
        starts.map(move |start| start..(start + size).min(len))
    })
}

/// The list without some of its items.
pub fn without<T: Clone>(list: &[T], items: Range<usize>) -> Vec<T> {
    [&list[..items.start], &list[items.end..]].concat()
}

/// Bytes of which nothing is known: shorter, or with a zero in place of a byte.
pub fn plainer(bytes: &[u8]) -> impl Iterator<Item = Vec<u8>> + '_ {
    let zeros = (0..bytes.len()).filter(|at| bytes[*at] != 0).map(|at| {
        let mut bytes = bytes.to_vec();
        bytes[at] = 0;
        bytes
    });
    shorter(bytes).chain(zeros)
}

#[cfg(test)]
mod tests {
    use super::*;

    #[test]
    fn halves_come_before_items() {
        let lists: Vec<_> = shorter(&[1, 2, 3]).collect();
        assert_eq!(lists[..3], [vec![], vec![3], vec![1, 2]]);
        assert_eq!(lists[3..], [[2, 3], [1, 3], [1, 2]]);
        assert_eq!(shorter::<u8>(&[]).count(), 0);
        let bytes: Vec<_> = plainer(&[0, 7]).collect();
        assert_eq!(bytes, [vec![], vec![7], vec![0], vec![0, 0]]);
    }
}
