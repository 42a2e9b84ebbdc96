//! The archivist's command. `kav --help` says what it does.

#[cfg(not(kav_linked))]
fn main() -> std::process::ExitCode {
    eprintln!("kav: built without the archive (../target/staticlib/libabi.a or KAV_ARCHIVE)");
    std::process::ExitCode::from(2)
}

/// Called before the runtime, and so before `main`.
#[cfg(kav_linked)]
#[used]
#[link_section = ".init_array"]
static FIRST: extern "C" fn() = kavtziron_host::kav::look_at_streams;

#[cfg(kav_linked)]
fn main() -> std::process::ExitCode {
    std::process::ExitCode::from(kavtziron_host::kav::main(std::env::args_os().skip(1).collect()))
}
