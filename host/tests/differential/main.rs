//! Every call of the archive beside the reference, on many inputs.
//!
//! Everything lent is compared whole after each call, refused or not, with guards before and behind
//! each buffer. Each case is made from a seed, a group and a number alone; a failing one is printed
//! with all its numbers, and that line replays it:
//!
//! ```text
//! cargo test --release --test differential                        # a fixed seed and a fresh one
//! KAV_SEED=12345 cargo test --release --test differential         # this seed alone
//! KAV_CASES=10 ...                                                # ten times as many random cases
//! KAV_PART=100 ...                                                # the first hundredth of each group
//! KAV_TRACE=1 ...          # one thread; target/last-case.txt has the case before a crash
//! KAV_REPLAY='read bytes=204,55 room=15' cargo test --release --test differential
//! KAV_REPLAY=@file ...                                            # a line kept in a file
//! ```

#[cfg(kav_linked)]
mod alone;
#[cfg(kav_linked)]
mod case;
#[cfg(kav_linked)]
mod compare;
#[cfg(kav_linked)]
mod drawn;
#[cfg(kav_linked)]
mod drawn_bus;
#[cfg(kav_linked)]
mod drawn_trace;
#[cfg(kav_linked)]
mod groups;
#[cfg(kav_linked)]
mod ignored;
#[cfg(kav_linked)]
mod running;
#[cfg(kav_linked)]
mod side;
#[cfg(kav_linked)]
mod trace;
#[cfg(kav_linked)]
mod zeros;

#[cfg(not(kav_linked))]
fn main() {
    println!("differential: no archive (../target/staticlib/libabi.a or KAV_ARCHIVE), NOTHING COMPARED");
    println!("differential: `tools/build.sh abi` makes it; feature `archive` makes its absence an error");
}

#[cfg(kav_linked)]
fn main() -> std::process::ExitCode {
    running::main()
}
