//! The acknowledgement of a wage file that is held in memory.
//!
//!     acknowledge YYYYMM FILE     YYYYMM: the last closed quarter

use wage::{abi_version, Walk, ABI_VERSION, FORMAT_PFML};

fn main() {
    assert_eq!(
        abi_version(),
        ABI_VERSION,
        "the library is of another version"
    );
    let words: Vec<String> = std::env::args().collect();
    let [_, quarter, path] = &words[..] else {
        panic!("usage: acknowledge YYYYMM FILE");
    };
    let quarter: u64 = quarter.parse().expect("YYYYMM is a number");
    let file = std::fs::read(path).expect("the file can be read");

    let mut walk = Walk::new(8192, 1024);
    if let Err(refusal) = walk.whole(FORMAT_PFML, quarter / 100, quarter % 100, &file) {
        eprintln!("{refusal}");
    }
    let frames = walk.frames().expect("a walk that has ended has frames");
    print!("{}", String::from_utf8_lossy(&frames));
}
