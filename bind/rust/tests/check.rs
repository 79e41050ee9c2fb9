//! Another encoder's views against the split: yes, sizes and every kind of wrong sample by hand, the sentences, what is refused, and random
//! pairs beside a plain search over the split's rows.

use haythaw::CheckedPlane::{self, U, V, Y};
use haythaw::CheckedView::{self, Auxiliary, Main};
use haythaw::{Avc444Layout, DecoderResult, SplitCheck, WidthRule, Yuv420Frame, Yuv444Frame};

/// Numbers that look random, and are the same in every run.
struct Numbers(u32);

impl Numbers {
    fn below(&mut self, limit: usize) -> usize {
        self.0 = self.0.wrapping_mul(1_664_525).wrapping_add(1_013_904_223);
        (self.0 >> 8) as usize % limit
    }

    fn byte(&mut self) -> u8 {
        self.below(256) as u8
    }
}

/// A picture of random pixels.
fn noisy(numbers: &mut Numbers, width: u16, height: u16) -> Yuv444Frame {
    let pixels: Vec<u8> = (0..usize::from(width) * usize::from(height) * 4).map(|_| numbers.byte()).collect();
    Yuv444Frame::from_rgba_filled(&pixels, width, height).expect("all pixels are there")
}

type Split = fn(&Yuv444Frame) -> DecoderResult<(Yuv420Frame, Yuv420Frame)>;
type Check = fn(&Yuv444Frame, &Yuv420Frame, &Yuv420Frame) -> DecoderResult<SplitCheck>;

/// Every way to split, and the check of it.
const WAYS: [(Split, Check); 4] = [
    (|picture| picture.split(Avc444Layout::V1), |picture, main, aux| picture.check_split(Avc444Layout::V1, main, aux)),
    (|picture| picture.split(Avc444Layout::V2), |picture, main, aux| picture.check_split(Avc444Layout::V2, main, aux)),
    (
        |picture| picture.split_v2(WidthRule::To16),
        |picture, main, aux| picture.check_split_v2(WidthRule::To16, main, aux),
    ),
    (
        |picture| picture.split_v2(WidthRule::To32),
        |picture, main, aux| picture.check_split_v2(WidthRule::To32, main, aux),
    ),
];

const PLANES: [CheckedPlane; 3] = [Y, U, V];

/// A view that can be altered.
#[derive(Clone)]
struct Loose {
    width: usize,
    height: usize,
    strides: [usize; 3],
    planes: [Vec<u8>; 3],
}

impl Loose {
    /// The samples of a view, with rows so many bytes longer than they are wide, which are 7.
    fn new(view: &Yuv420Frame, more: [usize; 2]) -> Self {
        let (width, height) = (usize::from(view.width()), usize::from(view.height()));
        let strides = [width + more[0], width.div_ceil(2) + more[1], width.div_ceil(2) + more[1]];
        let plane = |rows: usize, stride: usize, row: &dyn Fn(usize) -> Option<Vec<u8>>| {
            let padded = |at: usize| {
                let mut samples = row(at).expect("a row");
                samples.resize(stride, 7);
                samples
            };
            (0..rows).flat_map(padded).collect::<Vec<u8>>()
        };
        let planes = [
            plane(height, strides[0], &|at| view.luma_row(at).map(<[u8]>::to_vec)),
            plane(height.div_ceil(2), strides[1], &|at| view.u_row(at).map(<[u8]>::to_vec)),
            plane(height.div_ceil(2), strides[2], &|at| view.v_row(at).map(<[u8]>::to_vec)),
        ];
        Self { width, height, strides, planes }
    }

    fn at(&mut self, plane: CheckedPlane, row: usize, column: usize) -> &mut u8 {
        let plane = plane as usize;
        &mut self.planes[plane][row * self.strides[plane] + column]
    }

    /// Columns and rows of a plane.
    fn sides(&self, plane: CheckedPlane) -> (usize, usize) {
        match plane {
            Y => (self.width, self.height),
            U | V => (self.width.div_ceil(2), self.height.div_ceil(2)),
        }
    }

    fn frame(&self) -> Yuv420Frame {
        self.sized(self.width, self.height)
    }

    /// The same planes as a view of another size.
    fn sized(&self, width: usize, height: usize) -> Yuv420Frame {
        let [y, u, v] = self.planes.clone();
        Yuv420Frame::new(width as u16, height as u16, y, self.strides[0], u, v, self.strides[1]).expect("a whole view")
    }
}

/// Both views of a picture, to be altered.
fn pair(split: Split, picture: &Yuv444Frame, more: [usize; 4]) -> [Loose; 2] {
    let (main, auxiliary) = split(picture).expect("no side is too long");
    [Loose::new(&main, [more[0], more[1]]), Loose::new(&auxiliary, [more[2], more[3]])]
}

fn checked(check: Check, picture: &Yuv444Frame, [main, auxiliary]: &[Loose; 2]) -> SplitCheck {
    check(picture, &main.frame(), &auxiliary.frame()).expect("no side is too long")
}

#[test]
fn a_split_is_the_same_whatever_its_strides_are() {
    let numbers = &mut Numbers(1);
    for (width, height) in [(0, 0), (0, 5), (5, 0), (1, 1), (5, 5), (16, 16), (17, 33), (48, 16), (65, 2)] {
        let picture = noisy(numbers, width, height);
        for (split, check) in WAYS {
            for more in [[0; 4], [1, 2, 3, 5]] {
                assert_eq!(
                    checked(check, &picture, &pair(split, &picture, more)),
                    SplitCheck::Same,
                    "{width}x{height}"
                );
            }
        }
    }
}

/// The first and the last sample of each of the six planes, with what the view has and what is right.
#[test]
fn one_wrong_sample_is_named() {
    let numbers = &mut Numbers(2);
    for (width, height) in [(1, 1), (17, 33), (48, 16), (65, 5)] {
        let picture = noisy(numbers, width, height);
        for (split, check) in WAYS {
            let right = pair(split, &picture, [0, 4, 1, 0]);
            for (which, view) in [(0, Main), (1, Auxiliary)] {
                for plane in PLANES {
                    let (columns, rows) = right[which].sides(plane);
                    for (row, column) in [(0, 0), (0, columns - 1), (rows - 1, 0), (rows - 1, columns - 1)] {
                        let mut views = right.clone();
                        let sample = views[which].at(plane, row, column);
                        let expected = *sample;
                        *sample = expected.wrapping_add(1 + numbers.below(255) as u8);
                        let found = *sample;
                        let (row, column) = (row as u16, column as u16);
                        let wrong = SplitCheck::Wrong { view, plane, row, column, found, expected };
                        assert_eq!(checked(check, &picture, &views), wrong);
                    }
                }
            }
        }
    }
}

/// Width or height of a view one off, with the right samples and with a wrong one: no place is named, and the main view comes first.
#[test]
fn sizes_are_named_before_samples() {
    let picture = noisy(&mut Numbers(3), 33, 17);
    for (split, check) in WAYS {
        let right = pair(split, &picture, [1, 1, 1, 1]);
        let (width, height) = (right[0].width, right[0].height);
        let expected = (width as u16, height as u16);
        for (off_width, off_height) in [(width - 1, height), (width + 1, height), (width, height - 1), (16, 16), (0, 0)]
        {
            for wrong in [false, true] {
                let mut views = right.clone();
                *views[0].at(Y, 0, 0) ^= u8::from(wrong);
                let found = (off_width as u16, off_height as u16);
                let [main, auxiliary] = &views;
                let off = [main, auxiliary].map(|view| view.sized(off_width, off_height));
                assert_eq!(
                    check(&picture, &off[0], &auxiliary.frame()).unwrap(),
                    SplitCheck::Sizes { view: Main, found, expected }
                );
                assert_eq!(
                    check(&picture, &main.frame(), &off[1]).unwrap(),
                    SplitCheck::Sizes { view: Auxiliary, found, expected }
                );
                assert_eq!(
                    check(&picture, &off[0], &off[1]).unwrap(),
                    SplitCheck::Sizes { view: Main, found, expected }
                );
            }
        }
    }
}

/// Views by the one rule where the other is asked for: at 48 the sizes differ, and at 64 nothing does.
#[test]
fn the_other_rule() {
    for (width, same) in [(48, false), (64, true), (33, false), (17, true)] {
        let picture = noisy(&mut Numbers(4), width, 16);
        let (main, auxiliary) = picture.split_v2(WidthRule::To16).unwrap();
        assert_eq!(picture.check_split_v2(WidthRule::To32, &main, &auxiliary).unwrap().is_same(), same, "{width}");
        let (main, auxiliary) = picture.split_v2(WidthRule::To32).unwrap();
        assert_eq!(picture.check_split_v2(WidthRule::To16, &main, &auxiliary).unwrap().is_same(), same, "{width}");
    }
    // V1's views are as large as V2's, and their auxiliary views differ; the main views do not.
    let picture = noisy(&mut Numbers(5), 48, 48);
    let (main, auxiliary) = picture.split(Avc444Layout::V1).unwrap();
    let said = picture.check_split(Avc444Layout::V2, &main, &auxiliary).unwrap();
    assert!(matches!(said, SplitCheck::Wrong { view: Auxiliary, plane: Y, row: 0, .. }), "{said}");
}

#[test]
fn what_is_refused() {
    let empty = |width: u16, height: u16| {
        let chroma = usize::from(width).div_ceil(2);
        Yuv420Frame::new(width, height, vec![], width.into(), vec![], vec![], chroma).expect("no byte is needed")
    };
    for (width, height, by_16, by_32) in [
        (65_504, 0, true, true),
        (65_505, 0, true, false),
        (65_520, 0, true, false),
        (65_521, 0, false, false),
        (65_535, 0, false, false),
        (0, 65_520, true, true),
        (0, 65_521, false, false),
        (0, 65_535, false, false),
    ] {
        let picture = Yuv444Frame::new(width, height);
        for ((split, check), accepted) in WAYS.into_iter().zip([by_16, by_16, by_16, by_32]) {
            match split(&picture) {
                Ok((main, auxiliary)) => {
                    assert!(accepted, "{width}x{height}");
                    assert_eq!(check(&picture, &main, &auxiliary).unwrap(), SplitCheck::Same);
                    let found = (0, 0);
                    let expected = (main.width(), main.height());
                    assert_eq!(
                        check(&picture, &main, &empty(0, 0)).unwrap(),
                        SplitCheck::Sizes { view: Auxiliary, found, expected }
                    );
                }
                Err(error) => {
                    assert!(!accepted, "{width}x{height}");
                    let said = check(&picture, &empty(16, 0), &empty(0, 16)).unwrap_err();
                    assert_eq!(said.to_string(), error.to_string());
                    assert_eq!(said.to_string(), "decoder error: padded AVC444 picture exceeds 65535 pixels");
                }
            }
        }
    }
    let said = Yuv444Frame::new(0, 0).check_split_v2(WidthRule::Exact, &empty(0, 0), &empty(0, 0)).unwrap_err();
    assert_eq!(said.to_string(), "decoder error: no picture is split by a width that is not rounded");
}

#[test]
fn sentences() {
    let picture = Yuv444Frame::new(48, 48);
    let mut views = pair(|picture| picture.split_v2(WidthRule::To32), &picture, [0; 4]);
    let check: Check = |picture, main, aux| picture.check_split_v2(WidthRule::To32, main, aux);
    assert_eq!(checked(check, &picture, &views).to_string(), "the views are the split of the picture");

    *views[1].at(V, 23, 31) = 127;
    assert_eq!(
        checked(check, &picture, &views).to_string(),
        "auxiliary view, V, row 23, column 31: 127, the split has 128"
    );
    *views[1].at(U, 3, 17) = 130;
    assert_eq!(
        checked(check, &picture, &views).to_string(),
        "auxiliary view, U, row 3, column 17: 130, the split has 128"
    );
    *views[0].at(Y, 47, 63) = 1;
    assert_eq!(checked(check, &picture, &views).to_string(), "main view, Y, row 47, column 63: 1, the split has 0");

    let [main, auxiliary] = &views;
    let narrow = check(&picture, &main.sized(48, 48), &auxiliary.frame()).unwrap();
    assert_eq!(narrow.to_string(), "main view is 48x48, the split's views are 64x48");
    let low = check(&picture, &main.frame(), &auxiliary.sized(64, 47)).unwrap();
    assert_eq!(low.to_string(), "auxiliary view is 64x47, the split's views are 64x48");
}

/// The first sample that differs, searched for row by row.
fn searched(views: &[Loose; 2], right: &[Loose; 2]) -> SplitCheck {
    for (which, view) in [(0, Main), (1, Auxiliary)] {
        for plane in PLANES {
            let (columns, rows) = right[which].sides(plane);
            for (row, column) in (0..rows).flat_map(|row| (0..columns).map(move |column| (row, column))) {
                let (found, expected) =
                    (*views[which].clone().at(plane, row, column), *right[which].clone().at(plane, row, column));
                if found != expected {
                    let (row, column) = (row as u16, column as u16);
                    return SplitCheck::Wrong { view, plane, row, column, found, expected };
                }
            }
        }
    }
    SplitCheck::Same
}

/// None to three samples altered, of small pictures.
#[test]
fn random_pairs() {
    let numbers = &mut Numbers(6);
    let mut named = [0; 6];
    for turn in 0..240 {
        let picture = noisy(numbers, 1 + numbers.0 as u16 % 20, 1 + (numbers.0 >> 16) as u16 % 20);
        let (split, check) = WAYS[turn % 4];
        let right = pair(split, &picture, [0; 4]);
        let mut views = right.clone();
        for _ in 0..turn / 4 % 4 {
            let (which, plane) = (numbers.below(2), PLANES[numbers.below(3)]);
            let (columns, rows) = right[which].sides(plane);
            let (row, column) = (numbers.below(rows), numbers.below(columns));
            *views[which].at(plane, row, column) = numbers.byte();
        }
        let said = checked(check, &picture, &views);
        assert_eq!(said, searched(&views, &right));
        if let SplitCheck::Wrong { view, plane, .. } = said {
            named[plane as usize + if view == CheckedView::Main { 0 } else { 3 }] += 1;
        }
    }
    assert!(named.iter().all(|&times| times > 5), "{named:?}");
}
