//! The rule Exact by the original, which rounds the view's width up to 16: its V2 over a view as wide as the picture's stride, whose rows are
//! put together anew: U's part as it stands, and V's from W/2 or W/4 on, where W is the picture's width.
//!
//! What the view has not is missing in the new one too: it is applied with 0 and with 255 in place of it (`wide::keep_missing`). A stride of
//! 65,536 is more than a view's width holds: such a picture is cut at 65,520, and each part goes by itself.

use original::avc444::{probe, Avc444Layout, Yuv444Frame};
use original::decode::Yuv420Frame;
use original::ExclusiveRectangle;

use super::wide::keep_missing;

/// The greatest stride that is the width of a view, and a multiple of 16.
const CUT: usize = 65_520;

/// The auxiliary view of V2 into a picture, by the rule Exact.
pub fn apply(picture: &mut Yuv444Frame, view: &Yuv420Frame, rects: &[ExclusiveRectangle]) {
    let (width, height) = (usize::from(picture.width()), picture.height());
    let mut planes = probe::planes(picture).map(<[u8]>::to_vec);
    for part in [Part { width, from: 0, to: width.min(CUT) }, Part { width, from: CUT, to: width.max(CUT) }] {
        let before = planes.each_ref().map(|plane| part.columns(plane));
        let applied = |missing| {
            let mut onto = probe::with_planes(part.own() as u16, height, before.each_ref().map(Vec::as_slice));
            let shifted: Vec<_> = rects.iter().map(|rect| part.rect(rect)).collect();
            onto.apply_auxiliary_view(Avc444Layout::V2, &part.view(view, height, missing), &shifted);
            probe::planes(&onto).map(<[u8]>::to_vec)
        };
        let mut after = applied(0);
        keep_missing(&mut after, &applied(255), before.each_ref().map(Vec::as_slice));
        planes.iter_mut().zip(&after).for_each(|(plane, after)| part.put(plane, after));
    }
    *picture = probe::with_planes(width as u16, height, planes.each_ref().map(Vec::as_slice));
}

/// The columns from `from` to below `to` of a picture so wide, both multiples of 16 or the picture's ends.
struct Part {
    width: usize,
    from: usize,
    to: usize,
}

impl Part {
    fn own(&self) -> usize {
        self.to - self.from
    }

    fn own_stride(&self) -> usize {
        self.own().next_multiple_of(16)
    }

    /// Each row of a plane of the picture.
    fn rows<'a>(&self, plane: &'a [u8]) -> impl Iterator<Item = &'a [u8]> {
        plane.chunks_exact(self.width.next_multiple_of(16).max(1))
    }

    fn columns(&self, plane: &[u8]) -> Vec<u8> {
        self.rows(plane).flat_map(|row| &row[self.from.min(row.len())..][..self.own_stride()]).copied().collect()
    }

    fn put(&self, plane: &mut [u8], columns: &[u8]) {
        let rows = plane.chunks_exact_mut(self.width.next_multiple_of(16).max(1));
        for (row, own) in rows.zip(columns.chunks_exact(self.own_stride().max(1))) {
            row[self.from..][..own.len()].copy_from_slice(own);
        }
    }

    /// The rectangle as this part has it. One that is beside it, or ends at the cut, is empty, with an even edge.
    fn rect(&self, rect: &ExclusiveRectangle) -> ExclusiveRectangle {
        let &ExclusiveRectangle { left, top, right, bottom } = rect;
        let (cut, from) = (CUT as u16, self.from as u16);
        let end = if self.from == 0 { right.min(cut) } else { right };
        ExclusiveRectangle { left: left.saturating_sub(from), top, right: end.saturating_sub(from), bottom }
    }

    /// The view of these columns as a server that rounds to 16 would have laid it out, without rows that the picture has not.
    fn view(&self, view: &Yuv420Frame, height: u16, missing: u8) -> Yuv420Frame {
        let (wide, from, stride) = (self.width, self.from, self.own_stride());
        let high = usize::from(view.height()).min(usize::from(height).next_multiple_of(16));
        let (luma, chroma) = ([from / 2, wide / 2 + from / 2], [from / 4, wide / 4 + from / 4]);
        let y = halves((0..).map_while(|row| view.luma_row(row)), luma, stride / 2, high, missing);
        let u = halves((0..).map_while(|row| view.u_row(row)), chroma, stride / 4, high.div_ceil(2), missing);
        let v = halves((0..).map_while(|row| view.v_row(row)), chroma, stride / 4, high.div_ceil(2), missing);
        Yuv420Frame::new(stride as u16, high as u16, y, stride, u, v, stride / 2).expect("the planes hold it")
    }
}

/// A plane whose rows have two halves: what these have from the two starts on.
fn halves<'a>(rows: impl Iterator<Item = &'a [u8]>, starts: [usize; 2], half: usize, high: usize, missing: u8) -> Vec<u8> {
    let mut plane = vec![missing; 2 * half * high];
    for (into, row) in plane.chunks_exact_mut((2 * half).max(1)).zip(rows) {
        for (part, start) in into.chunks_exact_mut(half).zip(starts) {
            let there = row.get(start..).unwrap_or_default();
            let both = there.len().min(half);
            part[..both].copy_from_slice(&there[..both]);
        }
    }
    plane
}
