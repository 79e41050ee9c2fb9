//! The AVC444 payload beside `Avc444BitmapStream`: written beside its `encode`, and read beside its `decode`.
//!
//! The original stands on stand-ins here, for its cursors, errors, bits and rectangle.

mod carried;
mod case;
mod read;
mod stated;
mod write;

use super::Suite;

pub const WRITE_SUITE: Suite = Suite {
    name: "avc444_write",
    about: "each good payload that is written is read back by the original, too
systematic: kinds 0 to 5, 255, 256 and 2^32 - 1 with each two of 13 streams, good and bad, and outputs around each end of a stream,
with and without bit 6 of a quantiser byte; first streams around 2^30 bytes
random: kinds, streams of up to 7 rectangles and 600 bytes, outputs",
    run: write::every,
    replay: write::replay,
};

pub const READ_SUITE: Suite = Suite {
    name: "avc444_read",
    about: "all that is read: rectangles and pairs one by one, and the H.264 bytes; bit 6 of a quantiser byte is left out
systematic: kinds 0 to 3 of four payloads, with each size from 0 to two past the payload, 2^30 - 1, and each beginning of them;
each count from 0 to 5, 2^31 and 2^32 - 1 in either stream
random: payloads with numbers that are mostly right, cut or longer",
    run: read::every,
    replay: read::replay,
};
