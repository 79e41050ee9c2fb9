//! What the linked library says of itself.

use std::ffi::CStr;

#[test]
fn the_library_is_of_this_version() {
    let numbers = env!("CARGO_PKG_VERSION").split('.').map(|number| number.parse::<u32>().expect("three numbers"));
    let version = numbers.fold(0, |before, number| before * 256 + number);
    assert_eq!(haythaw_sys::haythaw_version(), version);
}

#[test]
fn each_number_has_a_sentence() {
    // SAFETY: the library's texts end in 0 and stay as they are.
    let sentence = |number| unsafe { CStr::from_ptr(haythaw_sys::haythaw_number_text(number)) };
    assert_eq!(sentence(0), c"done");
    assert!((1..=12).all(|number| sentence(number) != sentence(u32::MAX)));
}
