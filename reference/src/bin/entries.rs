//! Writes the file of the proved program that has the table of classes to
//! standard output.

#![forbid(unsafe_code)]

use reference::entries::file;

fn main() {
    print!("{}", file());
}
