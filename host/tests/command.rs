//! The command `kav`, run as a user runs it: what it prints, what it ends with, what it leaves alone. What `kav play` prints is
//! compared with a formatter of its own (`replay.rs`), which plays the recording by the reference, word by word.

#[cfg(kav_linked)]
#[path = "command/collection.rs"]
mod collection;
#[cfg(kav_linked)]
#[path = "command/documents.rs"]
mod documents;
#[cfg(kav_linked)]
#[path = "command/files.rs"]
mod files;
#[cfg(kav_linked)]
#[path = "command/messages.rs"]
mod messages;
#[cfg(kav_linked)]
#[path = "command/models.rs"]
mod models;
#[cfg(kav_linked)]
#[path = "command/outputs.rs"]
mod outputs;
#[cfg(kav_linked)]
#[path = "command/progress.rs"]
mod progress;
#[cfg(kav_linked)]
#[path = "command/random.rs"]
mod random;
#[cfg(kav_linked)]
#[path = "command/replay.rs"]
mod replay;
#[cfg(kav_linked)]
#[path = "command/statuses.rs"]
mod statuses;
#[cfg(kav_linked)]
#[path = "command/text.rs"]
mod text;
#[cfg(kav_linked)]
#[path = "command/tools.rs"]
mod tools;
#[cfg(kav_linked)]
#[path = "command/verify.rs"]
mod verify;
#[cfg(kav_linked)]
#[path = "command/writes.rs"]
mod writes;

#[cfg(not(kav_linked))]
#[test]
fn no_archive() {
    use std::io::Write as _;
    let text = b"command: no archive (../target/staticlib/libabi.a or KAV_ARCHIVE), NOTHING TRIED\n";
    std::io::stderr().write_all(text).unwrap();
    let ended = std::process::Command::new(env!("CARGO_BIN_EXE_kav")).arg("help").output().unwrap();
    assert_eq!(ended.status.code(), Some(2));
}
