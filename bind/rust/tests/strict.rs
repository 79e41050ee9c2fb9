//! The strict calls: which rectangles are sound, by hand; that a list is refused whole; and that what is accepted is as by the calls that clip.

use haythaw::{
    Avc444Layout, ExclusiveRectangle, RectangleFault, UnsoundRectangle, WidthRule, Yuv420Frame, Yuv444Frame,
};

use RectangleFault::{BottomAboveHeight, LeftNotBelowRight, RightAboveWidth, TopNotBelowBottom};

fn rect([left, top, right, bottom]: [u16; 4]) -> ExclusiveRectangle {
    ExclusiveRectangle { left, top, right, bottom }
}

/// A view whose samples differ from their neighbours, with no byte to spare.
fn noisy(width: u16, height: u16) -> Yuv420Frame {
    noise_from(1, width, height)
}

fn noise_from(first: usize, width: u16, height: u16) -> Yuv420Frame {
    let (w, h) = (usize::from(width), usize::from(height));
    let bytes =
        |count: usize, first: usize| (0..count).map(|at| (((first + at) * 2_654_435_761) >> 13) as u8).collect();
    let chroma = w.div_ceil(2) * h.div_ceil(2);
    let [y, u, v] =
        [(w * h, first), (chroma, first + 1), (chroma, first + 2)].map(|(count, first)| bytes(count, first));
    Yuv420Frame::new(width, height, y, w, u, v, w.div_ceil(2)).expect("a whole view")
}

/// All samples of a picture, padding included, and its map. Split, every sample stands in one of the two views.
fn left(picture: &Yuv444Frame) -> (Vec<Vec<u8>>, Vec<u8>) {
    let (main, auxiliary) = picture.split(Avc444Layout::V2).expect("no side is above 65,520");
    let rows = |view: &Yuv420Frame, row: fn(&Yuv420Frame, usize) -> Option<&[u8]>| {
        (0..).map_while(|at| row(view, at)).flatten().copied().collect()
    };
    let planes = [&main, &auxiliary]
        .map(|view| [Yuv420Frame::luma_row, Yuv420Frame::u_row, Yuv420Frame::v_row].map(|row| rows(view, row)));
    (planes.concat(), picture.map().to_vec())
}

type Strict = fn(&mut Yuv444Frame, &Yuv420Frame, &[ExclusiveRectangle]) -> Result<(), UnsoundRectangle>;
type Clipping = fn(&mut Yuv444Frame, &Yuv420Frame, &[ExclusiveRectangle]);

/// Each strict call, and the one that clips.
const CALLS: [(Strict, Clipping); 6] = [
    (Yuv444Frame::apply_main_view_strict, Yuv444Frame::apply_main_view),
    (
        |picture, view, rects| picture.apply_auxiliary_view_strict(Avc444Layout::V1, view, rects),
        |picture, view, rects| picture.apply_auxiliary_view(Avc444Layout::V1, view, rects),
    ),
    (
        |picture, view, rects| picture.apply_auxiliary_view_strict(Avc444Layout::V2, view, rects),
        |picture, view, rects| picture.apply_auxiliary_view(Avc444Layout::V2, view, rects),
    ),
    (
        |picture, view, rects| picture.apply_auxiliary_view_v2_strict(WidthRule::To16, view, rects),
        |picture, view, rects| picture.apply_auxiliary_view_v2(WidthRule::To16, view, rects),
    ),
    (
        |picture, view, rects| picture.apply_auxiliary_view_v2_strict(WidthRule::To32, view, rects),
        |picture, view, rects| picture.apply_auxiliary_view_v2(WidthRule::To32, view, rects),
    ),
    (
        |picture, view, rects| picture.apply_auxiliary_view_v2_strict(WidthRule::Exact, view, rects),
        |picture, view, rects| picture.apply_auxiliary_view_v2(WidthRule::Exact, view, rects),
    ),
];

/// A picture of 5 by 5 that has had a main view, so that an auxiliary view changes its map too.
fn five() -> Yuv444Frame {
    let mut picture = Yuv444Frame::new(5, 5);
    picture.apply_main_view(&noise_from(1000, 6, 6), &[rect([0, 0, 5, 5])]);
    picture
}

/// Rectangles in a picture of 5 by 5, and the first fault of each.
const FIVE: [([u16; 4], Option<RectangleFault>); 26] = [
    ([0, 0, 5, 5], None),
    ([4, 4, 5, 5], None),
    ([0, 0, 1, 1], None),
    ([1, 2, 5, 4], None),
    ([5, 0, 5, 4], Some(LeftNotBelowRight)),
    ([4, 0, 4, 4], Some(LeftNotBelowRight)),
    ([4, 0, 3, 4], Some(LeftNotBelowRight)),
    ([3, 4, 3, 2], Some(LeftNotBelowRight)),
    ([6, 0, 6, 5], Some(LeftNotBelowRight)),
    ([0, 0, 0, 0], Some(LeftNotBelowRight)),
    ([7, 7, 6, 6], Some(LeftNotBelowRight)),
    ([65_535, 65_535, 65_535, 65_535], Some(LeftNotBelowRight)),
    ([0, 3, 2, 3], Some(TopNotBelowBottom)),
    ([0, 5, 5, 5], Some(TopNotBelowBottom)),
    ([0, 4, 5, 3], Some(TopNotBelowBottom)),
    ([0, 6, 6, 6], Some(TopNotBelowBottom)),
    ([0, 65_535, 65_535, 0], Some(TopNotBelowBottom)),
    ([0, 0, 6, 5], Some(RightAboveWidth)),
    ([5, 0, 6, 5], Some(RightAboveWidth)),
    ([0, 0, 65_535, 5], Some(RightAboveWidth)),
    ([0, 0, 6, 6], Some(RightAboveWidth)),
    ([65_534, 65_534, 65_535, 65_535], Some(RightAboveWidth)),
    ([0, 0, 5, 6], Some(BottomAboveHeight)),
    ([0, 5, 5, 6], Some(BottomAboveHeight)),
    ([4, 4, 5, 65_535], Some(BottomAboveHeight)),
    ([0, 65_534, 5, 65_535], Some(BottomAboveHeight)),
];

#[test]
fn faults_by_hand() {
    let view = noisy(32, 16);
    for (edges, fault) in FIVE {
        let rectangle = rect(edges);
        let unsound = fault.map(|fault| UnsoundRectangle { index: 0, rectangle, fault });
        assert_eq!(five().first_unsound(&[rectangle]), unsound, "{edges:?}");
        for (strict, clipping) in CALLS {
            let (mut picture, mut clipped) = (five(), five());
            let before = left(&picture);
            assert_eq!(strict(&mut picture, &view, &[rectangle]).err(), unsound, "{edges:?}");
            if fault.is_some() {
                assert!(left(&picture) == before, "{edges:?}: a refused list changed the picture");
            } else {
                clipping(&mut clipped, &view, &[rectangle]);
                assert!(left(&picture) == left(&clipped) && left(&picture) != before, "{edges:?}");
            }
        }
    }
}

/// One of three rectangles, or of 500, is unsound: the others are not served either, and the first such is named.
#[test]
fn a_list_is_refused_whole() {
    let (view, sound) = (noisy(32, 16), rect([0, 0, 5, 5]));
    for (strict, _) in CALLS {
        for (edges, fault) in FIVE {
            for (count, at) in [(3, 0), (3, 1), (3, 2), (500, 250), (500, 499)] {
                let mut list = vec![sound; count];
                list[at] = rect(edges);
                let mut picture = five();
                let before = left(&picture);
                let found = strict(&mut picture, &view, &list).err();
                assert_eq!(found.map(|unsound| (unsound.index, unsound.fault)), fault.map(|fault| (at, fault)));
                assert_eq!(left(&picture) == before, fault.is_some(), "{edges:?} at {at} of {count}");
            }
        }
        let two = [sound, rect([0, 0, 5, 6]), rect([0, 0, 6, 5])];
        let found = strict(&mut five(), &view, &two).unwrap_err();
        assert_eq!((found.index, found.fault), (1, BottomAboveHeight));
    }
}

#[test]
fn an_empty_list_is_sound_and_changes_nothing() {
    for (strict, _) in CALLS {
        for (width, height) in [(5, 5), (0, 0), (0, 5), (5, 0), (65_520, 0)] {
            let mut picture = Yuv444Frame::new(width, height);
            let before = left(&picture);
            assert_eq!(strict(&mut picture, &noisy(32, 16), &[]), Ok(()));
            assert!(left(&picture) == before);
            assert_eq!(picture.first_unsound(&[]), None);
        }
    }
}

/// Without columns or rows no rectangle is sound; and at 65,535 every edge is within.
#[test]
fn pictures_without_a_side_and_the_largest() {
    for (size, edges, fault) in [
        ((0, 0), [0, 0, 0, 0], Some(LeftNotBelowRight)),
        ((0, 0), [0, 0, 1, 1], Some(RightAboveWidth)),
        ((0, 5), [0, 0, 0, 5], Some(LeftNotBelowRight)),
        ((0, 5), [0, 0, 1, 5], Some(RightAboveWidth)),
        ((5, 0), [0, 0, 5, 0], Some(TopNotBelowBottom)),
        ((5, 0), [0, 0, 5, 1], Some(BottomAboveHeight)),
        ((65_535, 1), [0, 0, 65_535, 1], None),
        ((65_535, 1), [65_534, 0, 65_535, 1], None),
        ((65_535, 1), [0, 0, 65_535, 2], Some(BottomAboveHeight)),
        ((65_534, 1), [0, 0, 65_535, 1], Some(RightAboveWidth)),
    ] {
        let found = Yuv444Frame::new(size.0, size.1).first_unsound(&[rect(edges)]);
        assert_eq!(found.map(|unsound| unsound.fault), fault, "{edges:?} in {size:?}");
    }
}

/// Lists of one to four sound rectangles, and views that are smaller, as large and larger: every sample and every block is as by the call that
/// clips.
#[test]
fn what_is_accepted_is_as_by_the_calls_that_clip() {
    let mut state = 1_u32;
    let mut below = |limit: u16| {
        state = state.wrapping_mul(1_664_525).wrapping_add(1_013_904_223);
        ((state >> 8) % u32::from(limit)) as u16
    };
    for turn in 0..300 {
        let (width, height) = (1 + below(50), 1 + below(40));
        let list: Vec<ExclusiveRectangle> = (0..1 + turn % 4)
            .map(|_| {
                let (left, top) = (below(width), below(height));
                rect([left, top, left + 1 + below(width - left), top + 1 + below(height - top)])
            })
            .collect();
        let view = noisy(below(80), below(60));
        for (strict, clipping) in CALLS {
            let mut one = Yuv444Frame::new(width, height);
            one.apply_main_view(&noise_from(1000, width, height), &[rect([0, 0, width, height])]);
            let mut two = one.clone();
            assert_eq!(strict(&mut one, &view, &list), Ok(()));
            clipping(&mut two, &view, &list);
            assert!(left(&one) == left(&two), "{width} x {height}, {list:?}");
        }
    }
}

#[test]
fn faults_in_words() {
    let words = |edges: [u16; 4]| {
        let error: Box<dyn std::error::Error> =
            Box::new(five().first_unsound(&[rect(edges)]).expect("it is not sound"));
        error.to_string()
    };
    assert_eq!(
        words([5, 0, 5, 4]),
        "rectangle 0 of the list, left 5, top 0, right 5, bottom 4: its left edge is not below its right edge"
    );
    assert_eq!(
        words([0, 3, 2, 3]),
        "rectangle 0 of the list, left 0, top 3, right 2, bottom 3: its top edge is not below its bottom edge"
    );
    assert_eq!(
        words([0, 0, 6, 5]),
        "rectangle 0 of the list, left 0, top 0, right 6, bottom 5: its right edge is above the picture's width"
    );
    assert_eq!(
        words([0, 0, 5, 6]),
        "rectangle 0 of the list, left 0, top 0, right 5, bottom 6: its bottom edge is above the picture's height"
    );
}
