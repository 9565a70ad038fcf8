//! Standard input and output: whether there are any, and which file output is.

use std::fs;
use std::path::Path;

/// What they are called in messages.
pub const INPUT: &str = "standard input";
pub const OUTPUT: &str = "standard output";

/// How a file is open: the low bits of its flags on Linux.
const READ: u32 = 0;
const WRITE: u32 = 1;

pub fn input_is_closed() -> bool {
    is_closed(0, WRITE)
}

pub fn output_is_closed() -> bool {
    is_closed(1, READ)
}

/// Whether there was no such file as the tool started, or one that is open the other way alone. Where there was none, the tool's
/// runtime puts /dev/null, open both ways, which no redirection does.
fn is_closed(number: u32, other_way: u32) -> bool {
    let null = fs::read_link(format!("/proc/self/fd/{number}")).is_ok_and(|path| path == Path::new("/dev/null"));
    let info = fs::read_to_string(format!("/proc/self/fdinfo/{number}")).unwrap_or_default();
    let flags = info.lines().find_map(|line| line.strip_prefix("flags:")).map(str::trim);
    let mode = flags.and_then(|flags| u32::from_str_radix(flags, 8).ok()).map(|flags| flags & 3);
    mode == Some(other_way) || (null && mode.is_some_and(|mode| mode != READ && mode != WRITE))
}

/// The path of standard output where that is a plain file.
pub fn output_file() -> Option<&'static Path> {
    let path = Path::new("/dev/stdout");
    fs::metadata(path).is_ok_and(|data| data.is_file()).then_some(path)
}
