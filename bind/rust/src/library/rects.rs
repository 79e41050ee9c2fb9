//! A list of rectangles, lent to a call.

use crate::geometry::ExclusiveRectangle;

const _: () = assert!(size_of::<ExclusiveRectangle>() == 4 * size_of::<u16>());
const _: () = assert!(align_of::<ExclusiveRectangle>() == align_of::<u16>());

/// A list of rectangles as the library takes it: left, top, right and bottom of each, uncopied.
pub fn numbers_of(rects: &[ExclusiveRectangle]) -> &[u16] {
    // SAFETY: a rectangle is `repr(C)` and has four u16, so that it is as large as these, aligned as they are and without padding
    // (asserted above). The result borrows the same bytes as the argument, for the same time, to be read.
    unsafe { core::slice::from_raw_parts(rects.as_ptr().cast(), 4 * rects.len()) }
}

/// The same, to be written. Any four numbers are a rectangle.
pub fn numbers_of_mut(rects: &mut [ExclusiveRectangle]) -> &mut [u16] {
    // SAFETY: the same, and the argument is borrowed to be written as long as the result is.
    unsafe { core::slice::from_raw_parts_mut(rects.as_mut_ptr().cast(), 4 * rects.len()) }
}

#[cfg(test)]
mod tests {
    use super::*;

    #[test]
    fn a_list_is_its_numbers_in_fours() {
        let mut rects = [
            ExclusiveRectangle { left: 1, top: 2, right: 3, bottom: 4 },
            ExclusiveRectangle { left: 65_535, top: 6, right: 7, bottom: 0 },
        ];
        assert_eq!(numbers_of(&rects), [1, 2, 3, 4, 65_535, 6, 7, 0]);
        assert!(numbers_of(&[]).is_empty() && numbers_of_mut(&mut []).is_empty());
        numbers_of_mut(&mut rects)[3..5].copy_from_slice(&[8, 9]);
        assert_eq!((rects[0].bottom, rects[1].left), (8, 9));
    }
}
