// The harness: what a caller can do with the public calls, written once. It has no `use` line of the crate that it runs over; lib.rs
// has them, once for the original and once for haythaw.
//
// A picture's planes are private. They are read by splitting it: the two views hold every sample, padding included.

use std::error::Error;
use std::fmt::{Debug, Display};

use crate::case::{bytes, Case, Layout, Picture, Planes, Rect, Step, View};
use crate::trace::Trace;

/// Everything that the calls of a case answer.
pub fn trace(case: &Case) -> Trace {
    let mut trace = Trace::default();
    match case {
        Case::Picture(picture) => run_picture(&mut trace, picture),
        Case::View(planes) => run_view(&mut trace, planes),
        Case::Payload { data, before } => run_payload(&mut trace, data, before),
        &Case::Sizes { width, height, rgba } => run_sizes(&mut trace, width, height, rgba),
        &Case::Frame { length, width, height } => run_frame(&mut trace, length, width, height),
        Case::Error(text) => run_error(&mut trace, text),
    }
    trace
}

fn run_picture(trace: &mut Trace, case: &Picture) {
    let Some(mut picture) = made(trace, case) else { return };
    trace.answer("Yuv444Frame as Debug").shown(&picture);
    for step in &case.steps {
        match step {
            Step::Main(view, rects) => {
                let view = view_of(view, case, None);
                picture.apply_main_view(&view, &rects_of(rects));
                tell_planes(trace.answer("Yuv444Frame::apply_main_view"), &picture);
            }
            Step::Auxiliary(layout, view, rects) => {
                let view = view_of(view, case, Some(*layout));
                picture.apply_auxiliary_view(layout_of(*layout), &view, &rects_of(rects));
                tell_planes(trace.answer("Yuv444Frame::apply_auxiliary_view"), &picture);
            }
            Step::Convert(rect) => {
                trace.answer("Yuv444Frame::to_rgba").bytes(&picture.to_rgba(&rect_of(*rect)));
            }
        }
    }
    trace.answer("Yuv444Frame::to_rgba").bytes(&picture.to_rgba(&whole(&picture)));
    for layout in [Layout::V1, Layout::V2] {
        tell_split(trace.answer("Yuv444Frame::split"), picture.split(layout_of(layout)));
    }
    let mut copy = picture.clone();
    if let Ok((main, _)) = picture.split(Avc444Layout::V1) {
        copy.apply_auxiliary_view(Avc444Layout::V2, &main, &[whole(&picture)]);
    }
    tell_planes(trace.answer("Yuv444Frame::clone"), &copy);
    tell_planes(trace, &picture);
}

/// The picture of a case, if there is one.
fn made(trace: &mut Trace, case: &Picture) -> Option<Yuv444Frame> {
    let Some((seed, more)) = case.pixels else {
        let picture = Yuv444Frame::new(case.width, case.height);
        tell_planes(trace.answer("Yuv444Frame::new"), &picture);
        return Some(picture);
    };
    let rgba = bytes(seed, usize::from(case.width) * usize::from(case.height) * 4 + more);
    let picture = Yuv444Frame::from_rgba(&rgba, case.width, case.height);
    trace.answer("Yuv444Frame::from_rgba").flag(picture.is_some());
    if let Some(picture) = &picture {
        tell_planes(trace, picture);
    }
    picture
}

/// The view that a step applies: a main view, or the auxiliary one of a layout.
fn view_of(view: &View, case: &Picture, auxiliary: Option<Layout>) -> Yuv420Frame {
    match *view {
        View::Noise(ref planes) => wrapped(planes).expect("the case's view is whole"),
        View::Sent { seed, width, height } => {
            let rgba = bytes(seed, usize::from(case.width) * usize::from(case.height) * 4);
            let sent = Yuv444Frame::from_rgba(&rgba, case.width, case.height).expect("the case's pixels are whole");
            let split = |layout| sent.split(layout_of(layout)).expect("the case's sides split");
            cropped(&auxiliary.map_or_else(|| split(Layout::V1).0, |layout| split(layout).1), width, height)
        }
    }
}

/// The first columns and rows of a view, as a decoder gives them that reports a cropped picture.
fn cropped(view: &Yuv420Frame, width: u16, height: u16) -> Yuv420Frame {
    let (width, height) = (width.min(view.width()), height.min(view.height()));
    let gathered =
        |row: &dyn Fn(usize) -> Vec<u8>, rows: u16| (0..usize::from(rows)).flat_map(row).collect::<Vec<u8>>();
    let (luma_width, chroma_width) = (usize::from(width), usize::from(width.div_ceil(2)));
    Yuv420Frame::new(
        width,
        height,
        gathered(&|row| view.luma_row(row).expect("a row")[..luma_width].to_vec(), height),
        luma_width,
        gathered(&|row| view.u_row(row).expect("a row")[..chroma_width].to_vec(), height.div_ceil(2)),
        gathered(&|row| view.v_row(row).expect("a row")[..chroma_width].to_vec(), height.div_ceil(2)),
        chroma_width,
    )
    .expect("a cropped view is whole")
}

fn wrapped(planes: &Planes) -> DecoderResult<Yuv420Frame> {
    let [y, u, v] = planes.bytes();
    Yuv420Frame::new(planes.width, planes.height, y, planes.luma_stride, u, v, planes.chroma_stride)
}

fn run_view(trace: &mut Trace, planes: &Planes) {
    let view = match wrapped(planes) {
        Ok(view) => view,
        Err(error) => return tell_error(trace.answer("Yuv420Frame::new").flag(false), &error),
    };
    trace.answer("Yuv420Frame::new").flag(true);
    trace.answer("Yuv420Frame::width").number(view.width().into());
    trace.answer("Yuv420Frame::height").number(view.height().into());
    trace.answer("Yuv420Frame as Debug").shown(&view);
    tell_rows(trace.answer("Yuv420Frame::luma_row"), &view, |row| view.luma_row(row));
    tell_rows(trace.answer("Yuv420Frame::u_row"), &view, |row| view.u_row(row));
    tell_rows(trace.answer("Yuv420Frame::v_row"), &view, |row| view.v_row(row));
    tell_view(trace.answer("Yuv420Frame::clone"), &view.clone());
    let frame = view.to_rgba();
    trace.answer("Yuv420Frame::to_rgba").bytes(frame.data());
    tell_frame(trace, frame);
}

fn run_payload(trace: &mut Trace, data: &[u8], before: &[u8]) {
    trace.answer("is_avc_format").flag(is_avc_format(data));
    let mut out = before.to_vec();
    avc_to_annex_b_into(data, &mut out);
    trace.answer("avc_to_annex_b_into").bytes(&out);
    avc_to_annex_b_into(&data[data.len() / 3..], &mut out);
    trace.answer("avc_to_annex_b_into").bytes(&out);
}

fn run_sizes(trace: &mut Trace, width: u16, height: u16, rgba: usize) {
    let size = Yuv444Frame::allocation_size(width, height);
    trace.answer("Yuv444Frame::allocation_size").number(size);
    let picture = Yuv444Frame::from_rgba(&bytes(1, rgba), width, height);
    trace.answer("Yuv444Frame::from_rgba").flag(picture.is_some());
    if size < 1 << 24 {
        let fresh = Yuv444Frame::new(width, height);
        trace.answer("Yuv444Frame::allocated_bytes").number(fresh.allocated_bytes());
        trace.answer("Yuv444Frame::new").number(fresh.width().into()).number(fresh.height().into());
    }
    for layout in [Avc444Layout::V1, Avc444Layout::V2] {
        trace.answer("Avc444Layout").shown(layout).flag(layout == Avc444Layout::V1);
    }
}

fn run_frame(trace: &mut Trace, length: usize, width: u32, height: u32) {
    // With debug assertions, bytes that are not the size's are a panic.
    match std::panic::catch_unwind(|| DecodedFrame::new(bytes(1, length), width, height)) {
        Ok(frame) => {
            trace.answer("DecodedFrame::new").flag(true);
            tell_frame(trace, frame);
        }
        Err(said) => {
            let said = said.downcast_ref::<String>().map_or("", String::as_str);
            trace.answer("DecodedFrame::new").flag(false).text(said);
        }
    }
}

fn run_error(trace: &mut Trace, text: &str) {
    tell_error(trace, &DecoderError::msg(text));
    let below = "x".parse::<u8>().expect_err("no number");
    let error = DecoderError::new(text.to_owned(), below);
    tell_error(trace, &error);
    tell_error(trace, &DecoderError::new("above", error));
}

fn tell_error(trace: &mut Trace, error: &DecoderError) {
    trace.answer("DecoderError as Display").text(&error.to_string()).text(&format!("{error:>40}|{error:.3}"));
    trace.answer("DecoderError as Debug").shown(error);
    let source = error.source();
    trace.answer("DecoderError::source").flag(source.is_some());
    if let Some(source) = source {
        trace.text(&source.to_string()).flag(source.is::<DecoderError>());
    }
}

fn tell_frame(trace: &mut Trace, frame: DecodedFrame) {
    trace.answer("DecodedFrame as Debug").shown(&frame);
    trace.answer("DecodedFrame::width").number(frame.width() as usize);
    trace.answer("DecodedFrame::height").number(frame.height() as usize);
    trace.answer("DecodedFrame::data").bytes(frame.data());
    trace.answer("DecodedFrame::clone").bytes(frame.clone().data());
    trace.answer("DecodedFrame::into_data").bytes(&frame.into_data());
}

/// Every row and how far it is from the first, and rows below the last.
fn tell_rows<'a>(trace: &mut Trace, view: &Yuv420Frame, row: impl Fn(usize) -> Option<&'a [u8]>) {
    let first = row(0).map_or(0, |first| first.as_ptr() as usize);
    let below = [view.height().into(), usize::from(u16::MAX) + 1, usize::MAX / 2, usize::MAX];
    for at in (0..view.height().into()).chain(below) {
        match row(at) {
            Some(row) => trace.flag(true).number(row.as_ptr() as usize - first).bytes(row),
            None => trace.flag(false),
        };
    }
}

fn tell_view(trace: &mut Trace, view: &Yuv420Frame) {
    trace.number(view.width().into()).number(view.height().into());
    tell_rows(trace, view, |row| view.luma_row(row));
    tell_rows(trace, view, |row| view.u_row(row));
    tell_rows(trace, view, |row| view.v_row(row));
}

fn tell_split(trace: &mut Trace, views: DecoderResult<(Yuv420Frame, Yuv420Frame)>) {
    match views {
        Ok((main, auxiliary)) => {
            tell_view(trace.flag(true), &main);
            tell_view(trace, &auxiliary);
        }
        Err(error) => tell_error(trace.flag(false), &error),
    }
}

/// Every sample of a picture's planes; of one that is too large to split, the pixels.
fn tell_planes(trace: &mut Trace, picture: &Yuv444Frame) {
    match picture.split(Avc444Layout::V1) {
        Ok((main, auxiliary)) => {
            tell_view(trace, &main);
            tell_view(trace, &auxiliary);
        }
        Err(_) => {
            trace.bytes(&picture.to_rgba(&whole(picture)));
        }
    }
}

fn whole(picture: &Yuv444Frame) -> ExclusiveRectangle {
    rect_of([0, 0, picture.width(), picture.height()])
}

fn rect_of([left, top, right, bottom]: Rect) -> ExclusiveRectangle {
    ExclusiveRectangle { left, top, right, bottom }
}

fn rects_of(rects: &[Rect]) -> Vec<ExclusiveRectangle> {
    rects.iter().copied().map(rect_of).collect()
}

fn layout_of(layout: Layout) -> Avc444Layout {
    match layout {
        Layout::V1 => Avc444Layout::V1,
        Layout::V2 => Avc444Layout::V2,
    }
}

/// The signatures and the traits, spelled out: where one differed, this would not compile.
#[allow(dead_code, clippy::type_complexity)]
fn signatures() {
    let _: fn(u16, u16) -> Yuv444Frame = Yuv444Frame::new;
    let _: fn(&[u8], u16, u16) -> Option<Yuv444Frame> = Yuv444Frame::from_rgba;
    let _: fn(u16, u16) -> usize = Yuv444Frame::allocation_size;
    let _: fn(&Yuv444Frame) -> usize = Yuv444Frame::allocated_bytes;
    let _: [fn(&Yuv444Frame) -> u16; 2] = [Yuv444Frame::width, Yuv444Frame::height];
    let _: fn(&mut Yuv444Frame, &Yuv420Frame, &[ExclusiveRectangle]) = Yuv444Frame::apply_main_view;
    let _: fn(&mut Yuv444Frame, Avc444Layout, &Yuv420Frame, &[ExclusiveRectangle]) = Yuv444Frame::apply_auxiliary_view;
    let _: fn(&Yuv444Frame, &ExclusiveRectangle) -> Vec<u8> = Yuv444Frame::to_rgba;
    let _: fn(&Yuv444Frame, Avc444Layout) -> Result<(Yuv420Frame, Yuv420Frame), DecoderError> = Yuv444Frame::split;
    let _: fn(u16, u16, Vec<u8>, usize, Vec<u8>, Vec<u8>, usize) -> DecoderResult<Yuv420Frame> = Yuv420Frame::new;
    let _: [fn(&Yuv420Frame) -> u16; 2] = [Yuv420Frame::width, Yuv420Frame::height];
    let _: [for<'a> fn(&'a Yuv420Frame, usize) -> Option<&'a [u8]>; 3] =
        [Yuv420Frame::luma_row, Yuv420Frame::u_row, Yuv420Frame::v_row];
    let _: fn(&Yuv420Frame) -> DecodedFrame = Yuv420Frame::to_rgba;
    let _: fn(Vec<u8>, u32, u32) -> DecodedFrame = DecodedFrame::new;
    let _: fn(&DecodedFrame) -> &[u8] = DecodedFrame::data;
    let _: [fn(&DecodedFrame) -> u32; 2] = [DecodedFrame::width, DecodedFrame::height];
    let _: fn(DecodedFrame) -> Vec<u8> = DecodedFrame::into_data;
    let _: fn(String) -> DecoderError = DecoderError::msg;
    let _: fn(&'static str, std::fmt::Error) -> DecoderError = DecoderError::new;
    let _: fn(&[u8]) -> bool = is_avc_format;
    let _: fn(&[u8], &mut Vec<u8>) = avc_to_annex_b_into;

    fn value<T: Clone + Debug + Send + Sync + Unpin + std::panic::UnwindSafe + 'static>() {}
    fn small<T: Copy + Eq + Debug>() {}
    fn error<T: Error + Display + Debug + Send + Sync + 'static>() {}
    value::<Yuv444Frame>();
    value::<Yuv420Frame>();
    value::<DecodedFrame>();
    value::<Avc444Layout>();
    value::<ExclusiveRectangle>();
    small::<Avc444Layout>();
    error::<DecoderError>();
}
