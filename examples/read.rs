// SPDX-License-Identifier: MIT
//! Reads headers of HTTP from an ordinary Rust program:
//!     rustc -O --edition 2024 read.rs -L native=/usr/local/lib -l static=mime && ./read VALUE..
//! With rustc before 1.82 write `extern "C"` for `unsafe extern "C"`, and `--edition 2021`.

use std::ffi::{CStr, c_char};
use std::fmt;
use std::os::unix::ffi::OsStrExt;

/// What `mime_content_type` finds besides the strings: `struct mime_found` of include/mime.h.
#[repr(C)]
#[derive(Default)]
struct Found {
    length: usize,
    params: usize,
    printed: usize,
    slash: usize,
    subtype_end: usize,
    pos: usize,
    byte: u8,
}

const INVALID_BYTE: u32 = 6;
const NOT_UTF8: u32 = 8;

unsafe extern "C" {
    fn mime_content_type(value: *const c_char, value_len: usize, out: *mut c_char, out_len: usize, found: *mut Found) -> u32;
    fn mime_answer_text(answer: u32) -> *const c_char;
}

/// Why a value isn't read: the answer of `mime_content_type`, which include/mime.h explains, and the position of an invalid byte, or of the
/// first byte that isn't part of valid UTF-8.
#[derive(Debug, PartialEq)]
pub struct Error {
    pub answer: u32,
    pub pos: Option<usize>,
}

impl fmt::Display for Error {
    fn fmt(&self, f: &mut fmt::Formatter) -> fmt::Result {
        // SAFETY: each answer has a text, a constant that ends in a 0.
        write!(f, "{}", unsafe { CStr::from_ptr(mime_answer_text(self.answer)) }.to_string_lossy())?;
        self.pos.map_or(Ok(()), |pos| write!(f, " at position {pos}"))
    }
}

impl std::error::Error for Error {}

/// A media type: its essence, its parameters, and how it is printed.
#[derive(Debug)]
pub struct Media {
    pub essence: String,
    pub params: Vec<(String, String)>,
    pub printed: String,
}

/// Reads the media type of a header's value, such as that of a Content-Type.
pub fn read(value: &[u8]) -> Result<Media, Error> {
    let mut out = vec![0u8; 3 * value.len() + 2];
    let mut found = Found::default();
    // SAFETY: each pointer is to a block of its own of the length given, and none is null.
    let answer = unsafe { mime_content_type(value.as_ptr().cast(), value.len(), out.as_mut_ptr().cast(), out.len(), &mut found) };
    if answer != 0 {
        return Err(Error { answer, pos: matches!(answer, INVALID_BYTE | NOT_UTF8).then_some(found.pos) });
    }
    let string = |bytes: &[u8]| String::from_utf8_lossy(bytes).into_owned();
    let mut strings = out[..found.length].split(|&byte| byte == 0).map(string);
    let mut next = || strings.next().unwrap_or_default();
    Ok(Media {
        essence: next(),
        params: (0..found.params).map(|_| (next(), next())).collect(),
        printed: next(),
    })
}

fn main() {
    for text in std::env::args_os().skip(1) {
        match read(text.as_bytes()) {
            Ok(media) => println!("{media:?}"),
            Err(error) => println!("not a media type: {error}"),
        }
    }
}
