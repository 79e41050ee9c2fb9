//! Rectangles, and lists of them as numbers in fours, for the suites of calls that take them.

use original::ExclusiveRectangle;

use crate::ours::Size;
use crate::random::Random;

/// Left, top, right, bottom.
pub type Rect = [u16; 4];

/// The original's rectangle.
pub fn original_of([left, top, right, bottom]: Rect) -> ExclusiveRectangle {
    ExclusiveRectangle { left, top, right, bottom }
}

/// The original's rectangles, if the numbers are whole fours.
pub fn originals_of(list: &[u16]) -> Option<Vec<ExclusiveRectangle>> {
    let fours = list.chunks_exact(4);
    fours.remainder().is_empty().then(|| fours.map(|four| original_of(four.try_into().expect("four"))).collect())
}

/// The words of a list that `--replay` gave.
pub fn of_words(words: &[u64]) -> Result<Vec<u16>, String> {
    words.iter().map(|&word| u16::try_from(word).map_err(|_| format!("{word} is no edge"))).collect()
}

/// Whether a rectangle is sound in a picture: left below right, top below bottom, right not above the width, bottom not above the height.
pub fn is_sound([left, top, right, bottom]: Rect, Size { width, height }: Size) -> bool {
    left < right && top < bottom && right <= width && bottom <= height
}

/// Whether every whole rectangle of a list is sound.
pub fn are_sound(list: &[u16], size: Size) -> bool {
    list.chunks_exact(4).all(|rect| is_sound(rect.try_into().expect("four"), size))
}

/// The rectangle that is the whole picture.
pub fn whole(Size { width, height }: Size) -> Rect {
    [0, 0, width, height]
}

/// Empty and reversed rectangles, and such as lie partly or wholly off each edge of a picture.
pub fn odd_ones(Size { width, height }: Size) -> Vec<Rect> {
    let (w, h) = (width, height);
    let (last_col, last_row) = (w.saturating_sub(1), h.saturating_sub(1));
    let after = u16::saturating_add;
    vec![
        [0, 0, 0, 0],
        [0, 0, w, 0],
        [0, 0, 0, h],
        [1, 0, 1, h],
        [0, 1, w, 1],
        [w, h, 0, 0],
        [w, 0, 0, h],
        [3, 5, 2, 9],
        [2, 5, 9, 4],
        [w, 0, after(w, 1), h],
        [0, h, w, after(h, 1)],
        [w, h, after(w, 16), after(h, 16)],
        [last_col, 0, after(w, 1), h],
        [0, last_row, w, after(h, 1)],
        [last_col, last_row, after(w, 3), after(h, 3)],
        [w, 0, w, h],
        [0, h, w, h],
        [after(w, 1), after(h, 1), after(w, 2), after(h, 2)],
        [0, 0, 65_535, 65_535],
        [1, 1, 65_535, 65_535],
        [65_534, 65_534, 65_535, 65_535],
        [65_535, 65_535, 65_535, 65_535],
        [65_535, 65_535, 0, 0],
    ]
}

/// A list of so many numbers.
pub fn anyhow(random: &mut Random, size: Size, numbers: usize) -> Vec<u16> {
    let rects = (0..numbers.div_ceil(4)).flat_map(|_| any_rect(random, size));
    let mut list: Vec<u16> = rects.collect();
    list.truncate(numbers);
    list
}

/// A rectangle that mostly meets the picture, and seldom is reversed or far off.
pub fn any_rect(random: &mut Random, Size { width, height }: Size) -> Rect {
    let mut pair = |limit: u16| {
        let most = u64::from(limit) + 3;
        let (a, b) = (random.between(0, most) as u16, random.between(0, most) as u16);
        match random.between(0, 19) {
            0 => (a.max(b), a.min(b)),
            1 => (a, 65_535),
            2 => (random.between(0, 65_535) as u16, random.between(0, 65_535) as u16),
            3 => (a, a),
            _ => (a.min(b), a.max(b)),
        }
    };
    let ((left, right), (top, bottom)) = (pair(width), pair(height));
    [left, top, right, bottom]
}

/// A list of so many rectangles that are sound, or of none where the picture has no pixel.
pub fn sound(random: &mut Random, Size { width, height }: Size, rects: usize) -> Vec<u16> {
    let mut pair = |limit: u16| {
        let from = random.between(0, u64::from(limit) - 1) as u16;
        (from, random.between(u64::from(from) + 1, limit.into()) as u16)
    };
    let rects = if width == 0 || height == 0 { 0 } else { rects };
    (0..rects)
        .flat_map(|_| {
            let ((left, right), (top, bottom)) = (pair(width), pair(height));
            [left, top, right, bottom]
        })
        .collect()
}

/// Rectangles whose edges are just sound and just not: right and bottom before, at and behind the picture's, left and top before, at and
/// behind right and bottom, or 0.
pub fn about_sound(Size { width, height }: Size) -> impl Iterator<Item = Rect> {
    let about = |edge: u16| [edge.saturating_sub(1), edge, edge.saturating_add(1)];
    let sides = move |limit: u16| {
        about(limit).into_iter().flat_map(move |end| about(end).into_iter().chain([0]).map(move |from| (from, end)))
    };
    sides(width).flat_map(move |(left, right)| sides(height).map(move |(top, bottom)| [left, top, right, bottom]))
}

#[cfg(test)]
mod tests {
    use super::*;

    #[test]
    fn sound_by_hand() {
        let size = Size { width: 5, height: 4 };
        for rect in [[0, 0, 5, 4], [4, 3, 5, 4], [0, 0, 1, 1]] {
            assert!(is_sound(rect, size), "{rect:?}");
        }
        for rect in [[5, 0, 5, 4], [3, 0, 2, 4], [0, 4, 5, 4], [0, 3, 5, 2], [0, 0, 6, 4], [0, 0, 5, 5]] {
            assert!(!is_sound(rect, size), "{rect:?}");
            assert!(!are_sound(&[[0, 0, 5, 4], rect].concat(), size) && are_sound(&rect[..3], size));
        }
        let random = &mut Random::new(1, "sound");
        for (size, rects) in [(size, 3), (Size { width: 1, height: 1 }, 3), (Size { width: 0, height: 9 }, 0)] {
            let list = sound(random, size, 3);
            assert_eq!((list.len(), are_sound(&list, size)), (4 * rects, true));
        }
        let about: Vec<Rect> = about_sound(size).collect();
        assert_eq!((about.len(), about.iter().filter(|&&rect| is_sound(rect, size)).count()), (144, 16));
    }

    #[test]
    fn a_list_of_no_whole_fours_has_no_rectangles() {
        assert_eq!(originals_of(&[1, 2, 3, 4, 5]), None);
        assert_eq!(originals_of(&[1, 2, 3, 4]), Some(vec![original_of([1, 2, 3, 4])]));
        assert_eq!(originals_of(&[]), Some(vec![]));
    }
}
