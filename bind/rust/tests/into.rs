//! Pixels into a caller's buffer, at a stride.

use haythaw::{Avc444Layout, ExclusiveRectangle, OutputError, PixelCounts, Yuv444Frame};

fn noise(count: usize) -> Vec<u8> {
    (1..=count).map(|at| (at.wrapping_mul(2_654_435_761) >> 13) as u8).collect()
}

/// A picture of noise, of which a part has had its main view alone since: there the pixels are stale.
fn picture(width: u16, height: u16) -> Yuv444Frame {
    let pixels = noise(usize::from(width) * usize::from(height) * 4);
    let mut picture = Yuv444Frame::from_rgba(&pixels, width, height).expect("as many pixels as it has");
    let (main, _) = picture.split(Avc444Layout::V1).expect("no side is above 65,520");
    let part = ExclusiveRectangle { left: width / 3, top: height / 3, right: width / 2 + 1, bottom: height };
    picture.apply_main_view(&main, &[part]);
    picture
}

fn rectangles(width: u16, height: u16) -> impl Iterator<Item = ExclusiveRectangle> {
    let edges = move |side: u16| [0, 1, side / 2, side.saturating_sub(1), side, side + 1, u16::MAX];
    edges(width).into_iter().flat_map(move |left| {
        edges(height).into_iter().flat_map(move |top| {
            edges(width).into_iter().flat_map(move |right| {
                edges(height).into_iter().map(move |bottom| ExclusiveRectangle { left, top, right, bottom })
            })
        })
    })
}

/// The rows of a rectangle, one by one, are its rows, with the same counts: whatever the stride, and nothing else is written.
#[test]
fn at_every_stride_the_rows_are_those_of_the_whole() {
    for (width, height) in [(0, 0), (1, 1), (3, 2), (6, 5), (17, 9), (34, 18)] {
        let picture = picture(width, height);
        for rect in rectangles(width, height) {
            let (pixels, counts) = picture.to_rgba_counted(&rect);
            let across = usize::from(rect.right.min(width).saturating_sub(rect.left));
            let down = usize::from(rect.bottom.min(height).saturating_sub(rect.top));
            for more in [0, 1, 4, 30] {
                let (row, stride) = (across * 4, across * 4 + more);
                let needed = if pixels.is_empty() { 0 } else { stride * (down - 1) + row };
                let mut expected = vec![0xA5; needed + 9];
                if !pixels.is_empty() {
                    for (at, part) in pixels.chunks(row).enumerate() {
                        expected[at * stride..][..row].copy_from_slice(part);
                    }
                }
                let mut out = vec![0xA5; needed + 9];
                assert_eq!(picture.to_rgba_into(&rect, &mut out, stride), Ok(counts), "{rect:?}, {stride}");
                assert_eq!(out, expected, "{rect:?}, {stride}");

                // In a buffer that is just long enough, too.
                let mut out = vec![0xA5; needed];
                assert_eq!(picture.to_rgba_into(&rect, &mut out, stride), Ok(counts));
                assert_eq!(out, expected[..needed]);
            }
        }
    }
}

#[test]
fn the_last_row_there_can_be_is_written() {
    let picture = Yuv444Frame::new(1, u16::MAX);
    let whole = ExclusiveRectangle { left: 0, top: 0, right: u16::MAX, bottom: u16::MAX };
    let mut out = vec![0xA5; 5 * usize::from(u16::MAX)];
    let counts = picture.to_rgba_into(&whole, &mut out, 5);
    assert_eq!(counts, Ok(PixelCounts { stale: u16::MAX.into(), ..PixelCounts::default() }));
    assert!(out.chunks(5).all(|row| row == [0, 0, 0, 255, 0xA5]));
}

#[test]
fn what_has_no_room_is_refused_and_nothing_is_written() {
    let picture = picture(17, 9);
    for rect in rectangles(17, 9) {
        let across = usize::from(rect.right.min(17).saturating_sub(rect.left));
        let down = usize::from(rect.bottom.min(9).saturating_sub(rect.top));
        let (row, mut out) = (across * 4, vec![0xA5; 17 * 9 * 8]);
        if row == 0 || down == 0 {
            // Nothing is asked of a buffer that nothing is written to.
            assert_eq!(picture.to_rgba_into(&rect, &mut [], 0), Ok(PixelCounts::default()));
            continue;
        }
        for stride in [0, row - 1] {
            let error = OutputError::StrideNarrow { stride, row };
            assert_eq!(picture.to_rgba_into(&rect, &mut out, stride), Err(error));
        }
        for stride in [row, row + 5] {
            let needed = stride * (down - 1) + row;
            for length in [0, needed - 1] {
                let error = OutputError::OutputShort { length, needed };
                assert_eq!(picture.to_rgba_into(&rect, &mut out[..length], stride), Err(error));
            }
        }
        if down > 1 {
            let error = OutputError::OutputShort { length: out.len(), needed: usize::MAX };
            assert_eq!(picture.to_rgba_into(&rect, &mut out, usize::MAX), Err(error));
        }
        assert!(out.iter().all(|byte| *byte == 0xA5));
    }
}
