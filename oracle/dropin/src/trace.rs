//! What the calls of a case answered, in order, as bytes.

use std::fmt;

/// The public calls, as a trace names them. A call that no case makes would be missed by `--self-test`.
pub const CALLS: [&str; 32] = [
    "Avc444Layout",
    "DecodedFrame as Debug",
    "DecodedFrame::clone",
    "DecodedFrame::data",
    "DecodedFrame::height",
    "DecodedFrame::into_data",
    "DecodedFrame::new",
    "DecodedFrame::width",
    "DecoderError as Debug",
    "DecoderError as Display",
    "DecoderError::source",
    "Yuv420Frame as Debug",
    "Yuv420Frame::clone",
    "Yuv420Frame::height",
    "Yuv420Frame::luma_row",
    "Yuv420Frame::new",
    "Yuv420Frame::to_rgba",
    "Yuv420Frame::u_row",
    "Yuv420Frame::v_row",
    "Yuv420Frame::width",
    "Yuv444Frame as Debug",
    "Yuv444Frame::allocated_bytes",
    "Yuv444Frame::allocation_size",
    "Yuv444Frame::apply_auxiliary_view",
    "Yuv444Frame::apply_main_view",
    "Yuv444Frame::clone",
    "Yuv444Frame::from_rgba",
    "Yuv444Frame::new",
    "Yuv444Frame::split",
    "Yuv444Frame::to_rgba",
    "avc_to_annex_b_into",
    "is_avc_format",
];

/// Answers one after the other, each with the name of its call.
#[derive(Default)]
pub struct Trace {
    bytes: Vec<u8>,
    /// The name, and where the answer starts.
    calls: Vec<(&'static str, usize)>,
}

impl Trace {
    /// Starts the answer of a call.
    pub fn answer(&mut self, call: &'static str) -> &mut Self {
        debug_assert!(CALLS.contains(&call), "{call} is not listed");
        self.calls.push((call, self.bytes.len()));
        self
    }

    pub fn number(&mut self, number: usize) -> &mut Self {
        self.bytes.extend((number as u64).to_le_bytes());
        self
    }

    pub fn flag(&mut self, flag: bool) -> &mut Self {
        self.bytes.push(flag.into());
        self
    }

    /// How many, and the bytes.
    pub fn bytes(&mut self, bytes: &[u8]) -> &mut Self {
        self.number(bytes.len());
        self.bytes.extend(bytes);
        self
    }

    pub fn text(&mut self, text: &str) -> &mut Self {
        self.bytes(text.as_bytes())
    }

    /// How a value shows itself to a programmer.
    pub fn shown(&mut self, value: impl fmt::Debug) -> &mut Self {
        self.text(&format!("{value:?}")).text(&format!("{value:#?}"))
    }

    /// How many bytes it has.
    pub fn length(&self) -> usize {
        self.bytes.len()
    }

    /// Each call, and how many bytes its answer has.
    pub fn calls(&self) -> impl Iterator<Item = (&'static str, usize)> + '_ {
        let ends = self.calls.iter().skip(1).map(|&(_, start)| start).chain([self.bytes.len()]);
        self.calls.iter().zip(ends).map(|(&(call, start), end)| (call, end - start))
    }

    /// Changes the last byte of the first answer of a call, and says whether there was one.
    pub fn alter(&mut self, call: &str) -> bool {
        let mut end = 0;
        let found = self.calls().find(|&(name, length)| {
            end += length;
            name == call && length > 0
        });
        if found.is_some() {
            self.bytes[end - 1] ^= 1;
        }
        found.is_some()
    }

    /// The first place where another trace, of `bind/rust`, differs from this one, of the original.
    pub fn difference(&self, ours: &Self) -> Option<Difference> {
        if self.bytes == ours.bytes && self.calls == ours.calls {
            return None;
        }
        let same = self.bytes.iter().zip(&ours.bytes).take_while(|(theirs, ours)| theirs == ours).count();
        let at = self.calls.iter().rposition(|&(_, start)| start <= same);
        let (call, start) = at.map_or(("nothing", 0), |at| self.calls[at]);
        Some(Difference {
            call,
            answer: at.unwrap_or(0),
            byte: same - start,
            theirs: self.bytes.get(same).copied(),
            ours: ours.bytes.get(same).copied(),
        })
    }
}

/// Where two traces first differ.
#[derive(Debug, PartialEq, Eq)]
pub struct Difference {
    /// The call, and which answer of the trace it is.
    pub call: &'static str,
    pub answer: usize,
    /// The byte of the answer, and what it is on both sides.
    pub byte: usize,
    pub theirs: Option<u8>,
    pub ours: Option<u8>,
}

impl fmt::Display for Difference {
    fn fmt(&self, f: &mut fmt::Formatter<'_>) -> fmt::Result {
        let said = |byte: Option<u8>| byte.map_or("no more".to_owned(), |byte| byte.to_string());
        write!(
            f,
            "{}, answer {}, byte {}: the original has {}, haythaw {}",
            self.call,
            self.answer,
            self.byte,
            said(self.theirs),
            said(self.ours)
        )
    }
}

#[cfg(test)]
mod tests {
    use super::*;

    fn two_answers() -> Trace {
        let mut trace = Trace::default();
        trace.answer("Yuv444Frame::new").number(3);
        trace.answer("is_avc_format").flag(true);
        trace
    }

    #[test]
    fn an_altered_answer_is_found_at_its_call() {
        let mut altered = two_answers();
        assert!(altered.alter("is_avc_format"));
        let found = two_answers().difference(&altered).expect("a difference");
        assert_eq!((found.call, found.byte, found.theirs, found.ours), ("is_avc_format", 0, Some(1), Some(0)));
        assert!(!altered.alter("avc_to_annex_b_into"));
    }

    #[test]
    fn a_trace_that_ends_early_differs() {
        let mut short = Trace::default();
        short.answer("Yuv444Frame::new").number(3);
        assert_eq!(
            two_answers().difference(&short).map(|found| (found.call, found.ours)),
            Some(("is_avc_format", None))
        );
        assert_eq!(two_answers().difference(&two_answers()), None);
    }
}
