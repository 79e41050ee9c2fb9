//! What a call answers, as far as the runs compare it.

/// An answer, with the lent buffers after the call if there are any.
pub trait Answer: PartialEq {
    /// How many bytes of it are compared.
    fn size(&self) -> usize;

    /// Makes it a wrong one, for the self-test. `choice`, any number, says in which place.
    fn alter(&mut self, choice: u64);

    /// The answer in a line that is not too long to print.
    fn shown(&self) -> String;

    /// Says where `theirs` first differs.
    fn differs_at(&self, theirs: &Self) -> String {
        format!("ours {}, expected {}", self.shown(), theirs.shown())
    }
}

/// The place that a choice picks of `places`, at least one.
pub fn picked(choice: u64, places: usize) -> usize {
    usize::try_from(choice % places as u64).expect("below a usize")
}

macro_rules! numbers {
    ($($number:ty)*) => {$(
        impl Answer for $number {
            fn size(&self) -> usize {
                size_of::<Self>()
            }

            fn alter(&mut self, choice: u64) {
                *self ^= 1 << picked(choice, 8 * size_of::<Self>());
            }

            fn shown(&self) -> String {
                self.to_string()
            }
        }
    )*};
}

numbers!(u8 u32 usize);

impl Answer for bool {
    fn size(&self) -> usize {
        1
    }

    fn alter(&mut self, _choice: u64) {
        *self = !*self;
    }

    fn shown(&self) -> String {
        self.to_string()
    }
}

impl<const N: usize> Answer for [u8; N] {
    fn size(&self) -> usize {
        N
    }

    fn alter(&mut self, choice: u64) {
        self[picked(choice, N)].alter(choice);
    }

    fn shown(&self) -> String {
        format!("{self:?}")
    }

    fn differs_at(&self, theirs: &Self) -> String {
        first_difference(self, theirs)
    }
}

/// Where two runs of bytes first differ.
pub fn first_difference(ours: &[u8], theirs: &[u8]) -> String {
    match ours.iter().zip(theirs).position(|(ours, theirs)| ours != theirs) {
        Some(at) => format!("at byte {at}: ours {}, expected {}", ours[at], theirs[at]),
        None if ours.len() == theirs.len() => "nowhere".to_owned(),
        None => format!("in length: ours {}, expected {}", ours.len(), theirs.len()),
    }
}

/// The first of the bytes, and how many there are.
pub fn beginning(bytes: &[u8]) -> String {
    const SHOWN: usize = 32;
    match bytes.get(..SHOWN) {
        Some(first) if SHOWN < bytes.len() => format!("{} bytes {first:?} ..", bytes.len()),
        _ => format!("{} bytes {bytes:?}", bytes.len()),
    }
}
