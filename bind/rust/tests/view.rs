//! Views over borrowed planes: they are what `Yuv420Frame` is over planes of its own, wherever one is taken.

use std::cell::RefCell;
use std::rc::Rc;
use std::sync::{Arc, Mutex};

use haythaw::{
    AsYuv420View, Avc444Layout, ExclusiveRectangle, SplitCheck, Yuv420Frame, Yuv420Planes, Yuv420View, Yuv444Frame,
};

fn noise(count: usize, first: usize) -> Vec<u8> {
    (first..first + count).map(|at| (at.wrapping_mul(2_654_435_761) >> 13) as u8).collect()
}

/// A view with more bytes than it needs: in each row, and after the last one.
fn planes(width: u16, height: u16, more: usize) -> Yuv420Planes {
    let (luma_stride, rows) = (usize::from(width) + more, usize::from(height));
    let (chroma_stride, chroma_rows) = (usize::from(width).div_ceil(2) + more, rows.div_ceil(2));
    Yuv420Planes {
        width,
        height,
        y: noise(luma_stride * rows + more, 1),
        luma_stride,
        u: noise(chroma_stride * chroma_rows + more, 70_000),
        v: noise(chroma_stride * chroma_rows + more, 140_000),
        chroma_stride,
    }
}

fn frame(planes: Yuv420Planes) -> Yuv420Frame {
    let Yuv420Planes { width, height, y, luma_stride, u, v, chroma_stride } = planes;
    Yuv420Frame::new(width, height, y, luma_stride, u, v, chroma_stride).expect("whole planes")
}

fn view(planes: &Yuv420Planes) -> Yuv420View<'_> {
    let Yuv420Planes { width, height, y, luma_stride, u, v, chroma_stride } = planes;
    Yuv420View::new(*width, *height, *luma_stride, *chroma_stride, y, u, v).expect("whole planes")
}

const SIZES: [(u16, u16); 8] = [(0, 0), (1, 1), (2, 3), (5, 4), (16, 16), (17, 31), (48, 2), (66, 33)];

#[test]
fn a_view_has_the_rows_and_pixels_of_the_frame() {
    for (width, height) in SIZES {
        for more in [0, 1, 13] {
            let planes = planes(width, height, more);
            let (view, frame) = (view(&planes), frame(planes.clone()));
            assert_eq!((view.width(), view.height()), (frame.width(), frame.height()));
            for row in 0..usize::from(height) + 2 {
                assert_eq!(view.luma_row(row), frame.luma_row(row));
                assert_eq!(view.u_row(row), frame.u_row(row));
                assert_eq!(view.v_row(row), frame.v_row(row));
            }
            assert_eq!(view.to_rgba().data(), frame.to_rgba().data());
            assert_eq!(view.to_frame().into_planes(), planes);
            assert_eq!(frame.into_planes(), planes);
        }
    }
}

#[test]
fn a_view_is_lent_and_not_copied() {
    let planes = planes(5, 4, 2);
    let view = view(&planes);
    assert!(
        std::ptr::eq(view.y(), &*planes.y) && std::ptr::eq(view.u(), &*planes.u) && std::ptr::eq(view.v(), &*planes.v)
    );
    assert_eq!((view.luma_stride(), view.chroma_stride()), (7, 5));
    assert!(std::ptr::eq(view.luma_row(1).expect("it has four"), &planes.y[7..12]));

    let frame = frame(planes);
    assert!(std::ptr::eq(frame.as_view().luma_row(1).unwrap(), frame.luma_row(1).unwrap()));
    let luma = frame.as_view().y().as_ptr();
    assert_eq!(frame.into_planes().y.as_ptr(), luma);
}

#[test]
fn a_view_is_refused_as_the_frame_is() {
    for (width, height) in SIZES {
        let fits = planes(width, height, 0);
        for which in 0..5 {
            let mut planes = fits.clone();
            // One less of each: of a stride or of a plane, where there is one to lose.
            let lost = match which {
                0 => planes.luma_stride.checked_sub(1).map(|stride| planes.luma_stride = stride).is_some(),
                1 => planes.chroma_stride.checked_sub(1).map(|stride| planes.chroma_stride = stride).is_some(),
                2 => planes.y.pop().is_some(),
                3 => planes.u.pop().is_some(),
                _ => planes.v.pop().is_some(),
            };
            let Yuv420Planes { width, height, y, luma_stride, u, v, chroma_stride } = planes;
            let view = Yuv420View::new(width, height, luma_stride, chroma_stride, &y, &u, &v).map(|_| ());
            let view = view.map_err(|error| error.to_string());
            let frame = Yuv420Frame::new(width, height, y.clone(), luma_stride, u.clone(), v.clone(), chroma_stride);
            assert_eq!(view, frame.map(|_| ()).map_err(|error| error.to_string()), "{width} x {height}, {which}");
            assert_eq!(view.is_err(), lost, "{width} x {height}, {which}");
        }
    }
}

#[test]
fn a_picture_takes_a_view_as_it_takes_the_frame() {
    let whole = ExclusiveRectangle { left: 0, top: 0, right: 21, bottom: 18 };
    let lists = [vec![], vec![whole], vec![ExclusiveRectangle { left: 3, top: 5, right: 8, bottom: 12 }, whole]];
    for rects in &lists {
        let (main, auxiliary) = (planes(21, 18, 3), planes(32, 32, 5));
        let mut with_views = Yuv444Frame::new(21, 18);
        let mut with_frames = with_views.clone();
        with_views.apply_main_view(&view(&main), rects);
        with_frames.apply_main_view(&frame(main.clone()), rects);
        for layout in [Avc444Layout::V1, Avc444Layout::V2] {
            with_views.apply_auxiliary_view(layout, &view(&auxiliary), rects);
            with_frames.apply_auxiliary_view(layout, &frame(auxiliary.clone()), rects);
            assert_eq!(with_views.to_rgba(&whole), with_frames.to_rgba(&whole));
            assert_eq!(with_views.map(), with_frames.map());
        }
        assert_eq!(with_views.apply_main_view_strict(&view(&main), rects), Ok(()));
    }
}

#[test]
fn a_split_is_checked_over_borrowed_planes() {
    let picture = Yuv444Frame::from_rgba(&noise(21 * 18 * 4, 1), 21, 18).expect("21 x 18 pixels");
    for layout in [Avc444Layout::V1, Avc444Layout::V2] {
        let (main, auxiliary) = picture.split(layout).expect("no side is above 65,520");
        let (main, mut auxiliary) = (main.into_planes(), auxiliary.into_planes());
        let said = picture.check_split(layout, &view(&main), &view(&auxiliary)).expect("nor here");
        assert_eq!(said, SplitCheck::Same);

        auxiliary.v[auxiliary.chroma_stride + 3] ^= 1;
        let said = picture.check_split(layout, &view(&main), &view(&auxiliary)).expect("nor here");
        assert!(said.to_string().starts_with("auxiliary view, V, row 1, column 3: "));
        assert_eq!(said, picture.check_split(layout, &frame(main), &frame(auxiliary)).expect("nor here"));
    }
}

/// What a `&Yuv420Frame` could be written as is still taken.
#[test]
#[allow(clippy::explicit_auto_deref, clippy::needless_borrow, clippy::unnecessary_mut_passed)]
fn what_became_a_reference_to_a_frame_still_does() {
    let (plain, whole) = (planes(4, 2, 0), [ExclusiveRectangle { left: 0, top: 0, right: 4, bottom: 2 }]);
    let mut picture = Yuv444Frame::new(4, 2);
    let (mut owned, boxed) = (frame(plain.clone()), Box::new(frame(plain.clone())));
    let (shared, counted) = (Arc::new(frame(plain.clone())), Rc::new(frame(plain.clone())));
    let (locked, celled) = (Mutex::new(frame(plain.clone())), RefCell::new(frame(plain.clone())));

    picture.apply_main_view(&owned, &whole);
    picture.apply_main_view(&&owned, &whole);
    picture.apply_main_view(&mut owned, &whole);
    picture.apply_main_view(&boxed, &whole);
    picture.apply_main_view(boxed.as_ref(), &whole);
    picture.apply_main_view(&*shared, &whole);
    picture.apply_main_view(&shared, &whole);
    picture.apply_main_view(&counted, &whole);
    picture.apply_main_view(&locked.lock().expect("nobody panicked"), &whole);
    picture.apply_main_view(&celled.borrow(), &whole);
    picture.apply_main_view(&view(&plain), &whole);
    picture.apply_main_view(&view(&plain) as &dyn AsYuv420View, &whole);

    let apply: fn(&mut Yuv444Frame, &Yuv420Frame, &[ExclusiveRectangle]) = Yuv444Frame::apply_main_view;
    apply(&mut picture, &owned, &whole);
    [owned].iter().for_each(|frame| picture.apply_main_view(frame, &whole));
}
