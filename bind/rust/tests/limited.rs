//! Limited range: views to RGBA and pictures from RGBA by either matrix, by hand and beside the formulas; there and back.

use haythaw::YuvMatrix::{Bt601Limited, Bt709Full};
use haythaw::{Avc444Layout, Yuv420Frame, Yuv420View, Yuv444Frame, YuvMatrix};

fn noise(count: usize, first: usize) -> Vec<u8> {
    (first..first + count).map(|at| (at.wrapping_mul(2_654_435_761) >> 13) as u8).collect()
}

const SIZES: [(u16, u16); 10] = [(0, 0), (0, 5), (5, 0), (1, 1), (2, 3), (5, 4), (16, 16), (17, 17), (48, 2), (66, 33)];

/// Red, green and blue of samples in limited range; `div_euclid` rounds down.
fn pixel(y: u8, u: u8, v: u8) -> [u8; 4] {
    let (c, d, e) = (298 * (i32::from(y) - 16), i32::from(u) - 128, i32::from(v) - 128);
    let shade = |sum: i32| (sum + 128).div_euclid(256).clamp(0, 255) as u8;
    [shade(c + 409 * e), shade(c - 100 * d - 208 * e), shade(c + 516 * d), 255]
}

/// Y, U and V of a colour in limited range.
fn samples(rgb: &[u8]) -> [u8; 3] {
    let [r, g, b] = [0, 1, 2].map(|at| i32::from(rgb[at]));
    let sample = |sum: i32, added: i32| ((sum + 128).div_euclid(256) + added) as u8;
    [
        sample(66 * r + 129 * g + 25 * b, 16),
        sample(-38 * r - 74 * g + 112 * b, 128),
        sample(112 * r - 94 * g - 18 * b, 128),
    ]
}

/// What one pixel is shown as.
fn shown(yuv: [u8; 3], matrix: YuvMatrix) -> [u8; 4] {
    let [y, u, v] = yuv.map(|sample| [sample]);
    let view = Yuv420View::new(1, 1, 1, 1, &y, &u, &v).expect("a pixel");
    view.to_rgba_with(matrix).into_data().try_into().expect("four bytes")
}

#[test]
fn pixels_by_hand() {
    for (yuv, rgba) in [
        ([16, 128, 128], [0, 0, 0, 255]),
        ([235, 128, 128], [255, 255, 255, 255]),
        ([0, 128, 128], [0, 0, 0, 255]),
        ([255, 128, 128], [255, 255, 255, 255]),
        ([82, 90, 240], [255, 1, 0, 255]),
        ([144, 54, 34], [0, 254, 0, 255]),
        ([41, 240, 110], [0, 0, 255, 255]),
        ([0, 0, 0], [0, 135, 0, 255]),
        ([255, 255, 255], [255, 125, 255, 255]),
    ] {
        assert_eq!(shown(yuv, Bt601Limited), rgba, "{yuv:?}");
    }
    assert_eq!(shown([53, 99, 255], Bt709Full), [252, 0, 0, 255]);
    assert_eq!(samples(&[255, 0, 0]), [82, 90, 240]);
}

#[test]
fn a_view_of_noise_at_every_size_and_stride() {
    for (width, height) in SIZES {
        for more in [0, 1, 13] {
            let (luma, rows) = (usize::from(width) + more, usize::from(height));
            let (chroma, half) = (usize::from(width).div_ceil(2) + more, rows.div_ceil(2));
            let (y, u, v) = (noise(luma * rows, 1), noise(chroma * half, 70_000), noise(chroma * half, 140_000));
            let view = Yuv420View::new(width, height, luma, chroma, &y, &u, &v).expect("whole planes");
            let mut expected = Vec::new();
            for row in 0..rows {
                for column in 0..usize::from(width) {
                    let at = row / 2 * chroma + column / 2;
                    expected.extend(pixel(y[row * luma + column], u[at], v[at]));
                }
            }
            let frame = view.to_frame();
            let limited = view.to_rgba_with(Bt601Limited);
            assert_eq!((limited.width(), limited.height()), (width.into(), height.into()));
            assert_eq!(limited.data(), expected, "{width}x{height}, {more} more");
            assert_eq!(frame.to_rgba_with(Bt601Limited).data(), expected);
            // By the other matrix it is the call without one.
            assert_eq!(view.to_rgba_with(Bt709Full).data(), view.to_rgba().data());
            assert_eq!(frame.to_rgba_with(Bt709Full).data(), frame.to_rgba().data());
        }
    }
}

/// A sample of a picture of RGBA pixels: 0 is Y, 1 is U and 2 is V. In the padding it is that of the nearest pixel, and then the even-even ones of
/// U and V are averages.
fn sample_of(rgba: &[u8], width: u16, height: u16, plane: usize, row: usize, column: usize) -> u8 {
    let plain = |row: usize, column: usize| {
        let (row, column) = (row.min(usize::from(height) - 1), column.min(usize::from(width) - 1));
        samples(&rgba[(row * usize::from(width) + column) * 4..])[plane]
    };
    if plane == 0 || row % 2 == 1 || column % 2 == 1 {
        return plain(row, column);
    }
    let block = [(0, 0), (0, 1), (1, 0), (1, 1)].map(|(down, right)| u16::from(plain(row + down, column + right)));
    ((block.iter().sum::<u16>() + 2) / 4) as u8
}

/// Both views of layout V1 of such a picture: the main view has Y and the even-even places, the auxiliary view all others.
fn views_are(main: &Yuv420Frame, auxiliary: &Yuv420Frame, sample: impl Fn(usize, usize, usize) -> u8) {
    let (wide, high) = (usize::from(main.width()), usize::from(main.height()));
    let row_of = |plane: usize, row: usize, first: usize, step: usize| -> Vec<u8> {
        (first..wide).step_by(step).map(|column| sample(plane, row, column)).collect()
    };
    for row in 0..high {
        assert_eq!(main.luma_row(row), Some(&row_of(0, row, 0, 1)[..]), "Y, row {row}");
        // Of each 16 luma rows the first eight have U of the odd rows, and the others V.
        let odd = row / 16 * 16 + row % 8 * 2 + 1;
        let plane = 1 + row % 16 / 8;
        assert_eq!(auxiliary.luma_row(row), Some(&row_of(plane, odd, 0, 1)[..]), "plane {plane}, row {odd}");
    }
    for row in 0..high / 2 {
        assert_eq!(main.u_row(row), Some(&row_of(1, 2 * row, 0, 2)[..]), "averages of U, row {row}");
        assert_eq!(main.v_row(row), Some(&row_of(2, 2 * row, 0, 2)[..]), "averages of V, row {row}");
        assert_eq!(auxiliary.u_row(row), Some(&row_of(1, 2 * row, 1, 2)[..]), "U, row {row}");
        assert_eq!(auxiliary.v_row(row), Some(&row_of(2, 2 * row, 1, 2)[..]), "V, row {row}");
    }
}

#[test]
fn a_picture_of_noise_at_every_size() {
    for (width, height) in SIZES {
        let count = usize::from(width) * usize::from(height) * 4;
        for more in [0, 3] {
            let rgba = noise(count + more, 9);
            let picture =
                Yuv444Frame::from_rgba_with(Bt601Limited, &rgba, width, height).expect("all pixels are there");
            assert_eq!((picture.width(), picture.height()), (width, height));
            assert!(picture.map().iter().all(|&block| block == 2));
            let (main, auxiliary) = picture.split(Avc444Layout::V1).expect("no side is above 65,520");
            views_are(&main, &auxiliary, |plane, row, column| sample_of(&rgba, width, height, plane, row, column));

            // By the other matrix it is the picture whose edge is filled.
            let full = Yuv444Frame::from_rgba_with(Bt709Full, &rgba, width, height).expect("all pixels are there");
            let filled = Yuv444Frame::from_rgba_filled(&rgba, width, height).expect("all pixels are there");
            let (main, auxiliary) = filled.split(Avc444Layout::V1).expect("no side is above 65,520");
            let same = full.check_split(Avc444Layout::V1, &main, &auxiliary).expect("no side is above 65,520");
            assert!(same.is_same(), "{width}x{height}: {same}");
        }
        for matrix in [Bt601Limited, Bt709Full] {
            let short = Yuv444Frame::from_rgba_with(matrix, &noise(count.saturating_sub(1), 9), width, height);
            assert_eq!(short.is_none(), count > 0, "{width}x{height}");
        }
    }
}

/// A picture that there will not be is never allocated.
#[test]
fn a_picture_without_pixels_takes_no_memory() {
    assert!(Yuv444Frame::from_rgba_with(Bt601Limited, &[], u16::MAX, u16::MAX).is_none());
}

/// Colours in steps of 5, each a picture of its own: at most 2 off in red and green, and 3 in blue.
#[test]
fn colours_there_and_back() {
    for red in (0..=255).step_by(5) {
        for green in (0..=255).step_by(5) {
            let blues: Vec<u8> = (0..=255).step_by(5).collect();
            let rgba: Vec<u8> = blues.iter().flat_map(|&blue| [red, green, blue, 255].repeat(2)).collect();
            let width = rgba.len() / 4;
            let picture = Yuv444Frame::from_rgba_with(Bt601Limited, &rgba, width as u16, 1).expect("a row of pixels");
            let (main, _) = picture.split(Avc444Layout::V2).expect("no side is above 65,520");
            let back = main.to_rgba_with(Bt601Limited);
            for (given, shown) in rgba.chunks(4).zip(back.data().chunks(4)) {
                let off = [0, 1, 2].map(|at| given[at].abs_diff(shown[at]));
                assert!(off[0] <= 2 && off[1] <= 2 && off[2] <= 3, "{given:?} is shown as {shown:?}");
            }
        }
    }
}

/// The original's type can be copied, compared and printed.
#[test]
fn a_matrix_is_a_value() {
    let matrix = Bt601Limited;
    let copy = matrix;
    assert_eq!(matrix, copy);
    assert_ne!(matrix, Bt709Full);
    assert_eq!(format!("{matrix:?} {:?}", Bt709Full), "Bt601Limited Bt709Full");
}
