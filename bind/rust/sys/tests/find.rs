//! What the build script does with what it finds. tests/rust_package.sh of the repository runs it whole.

#[allow(dead_code)]
#[path = "../build.rs"]
mod build;

use std::path::Path;

use build::{given, guessed, nowhere, same_version, supported, version, words, Target};

const OWN: &str = env!("CARGO_PKG_VERSION");

#[test]
fn linux_on_two_machines_is_supported() {
    for machine in ["x86_64", "aarch64"] {
        assert_eq!(supported("that", "linux", machine, "64", "little"), Ok(()));
    }
}

#[test]
fn any_other_target_is_refused_in_one_line() {
    for (name, os, machine, bits, order) in [
        ("x86_64-pc-windows-msvc", "windows", "x86_64", "64", "little"),
        ("aarch64-apple-darwin", "macos", "aarch64", "64", "little"),
        ("aarch64-linux-android", "android", "aarch64", "64", "little"),
        ("i686-unknown-linux-gnu", "linux", "x86", "32", "little"),
        ("riscv64gc-unknown-linux-gnu", "linux", "riscv64", "64", "little"),
        ("x86_64-unknown-linux-gnux32", "linux", "x86_64", "32", "little"),
        ("aarch64_be-unknown-linux-gnu", "linux", "aarch64", "64", "big"),
    ] {
        assert_eq!(
            supported(name, os, machine, bits, order),
            Err(format!("the target is {name}; the library is for Linux on x86-64 and aarch64, of 64 bits, alone"))
        );
    }
}

#[test]
fn a_version_stands_behind_its_mark() {
    assert_eq!(version(b"\x7fELF\0haythaw-version-0.5.0\0more"), Some("0.5.0".to_owned()));
    assert_eq!(version(b"haythaw-version-1.20.3-rc.1"), Some("1.20.3-rc.1".to_owned()));
    assert_eq!(version(b"haythaw-version-"), Some(String::new()));
    assert_eq!(version(b"haythaw_version"), None);
    assert_eq!(version(b""), None);
}

#[test]
fn a_file_of_another_version_is_refused() {
    let file = Path::new("/folder/libhaythaw.a");
    assert_eq!(same_version(file, format!("..haythaw-version-{OWN}\0").as_bytes()), Ok(()));
    assert_eq!(
        same_version(file, b"..haythaw-version-0.3.0\0"),
        Err(format!("/folder/libhaythaw.a is of version 0.3.0, and this is haythaw-sys {OWN}, which needs {OWN}"))
    );
    // Neither is a longer one that starts alike.
    assert!(same_version(file, format!("..haythaw-version-{OWN}1\0").as_bytes()).is_err());
    assert_eq!(
        same_version(file, b"\x7fELF"),
        Err(format!("/folder/libhaythaw.a does not say its version, and this is haythaw-sys {OWN}, which needs {OWN}"))
    );
}

#[test]
fn a_folder_is_named_in_full_and_has_the_library() {
    let message = given(Path::new("oracle/build")).unwrap_err();
    assert_eq!(message, "HAYTHAW_LIB_DIR is oracle/build; it has to be an absolute path, as $PWD/oracle/build");
    let message = given(Path::new("/proc/self/none")).unwrap_err();
    assert_eq!(
        message,
        "HAYTHAW_LIB_DIR is /proc/self/none, and there is neither libhaythaw.a nor libhaythaw.so in it"
    );
}

#[test]
fn what_is_said_where_there_is_none_has_all_ways() {
    let message = nowhere("aarch64");
    for way in ["HAYTHAW_LIB_DIR", "pkg-config", "assembly/aarch64.s", "oracle/library.sh"] {
        assert!(message.contains(way), "{way} is not in: {message}");
    }
}

#[test]
fn flags_are_words_in_which_a_blank_may_be_escaped() {
    assert_eq!(words("-L/usr/lib  -lhaythaw\n"), ["-L/usr/lib", "-lhaythaw"]);
    assert_eq!(words(r"-L/a\ b/lib -I/c"), ["-L/a b/lib", "-I/c"]);
    assert!(words(" ").is_empty());
}

#[test]
fn a_tool_for_another_machine_has_its_usual_name() {
    let target = |name: &str, host: &str, machine: &str| Target {
        name: name.to_owned(),
        host: host.to_owned(),
        machine: machine.to_owned(),
    };
    let (pc, arm) = ("x86_64-unknown-linux-gnu", "aarch64-unknown-linux-gnu");
    assert_eq!(guessed("gcc", "cc", &target(pc, pc, "x86_64")), "cc");
    assert_eq!(guessed("gcc", "cc", &target("x86_64-unknown-linux-musl", pc, "x86_64")), "cc");
    assert_eq!(guessed("gcc", "cc", &target(arm, pc, "aarch64")), "aarch64-linux-gnu-gcc");
    assert_eq!(guessed("ar", "ar", &target(pc, arm, "x86_64")), "x86_64-linux-gnu-ar");
}
