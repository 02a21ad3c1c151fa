// SPDX-License-Identifier: MIT
//! Chooses what an ordinary Rust program sends, by the Accept header of a request, as negotiate.c and negotiate.py do:
//!     rustc -O --edition 2024 negotiate.rs -L native=/usr/local/lib -l static=mime && ./negotiate [ACCEPT]
//! With rustc before 1.82 write `extern "C"` for `unsafe extern "C"`, and `--edition 2021`.

use std::ffi::c_char;
use std::os::unix::ffi::OsStrExt;

/// What is sent, the best first.
const TYPES: [&str; 3] = ["text/html; charset=utf-8", "application/json", "text/plain; charset=utf-8"];

const OK: u32 = 0;
const NOT_ACCEPTABLE: u32 = 10;

unsafe extern "C" {
    fn mime_content_type(value: *const c_char, value_len: usize, out: *mut c_char, out_len: usize, found: *mut usize) -> u32;
    fn mime_best(accept: *const c_char, accept_len: usize, offers: *const c_char, offers_len: usize, best: *mut usize) -> u32;
}

/// Returns the offers as a list. Each has to be a media type, since one that is empty or has a comma isn't one offer of the list.
///
/// # Panics
/// If an offer isn't one.
fn joined(offers: &[&str]) -> String {
    for offer in offers {
        let mut out = vec![0u8; 3 * offer.len() + 2];
        // What is found isn't needed: a struct as large as seven words.
        let mut found = [0; 7];
        // SAFETY: each pointer is to a block of its own of the length given, and none is null.
        let answer =
            unsafe { mime_content_type(offer.as_ptr().cast(), offer.len(), out.as_mut_ptr().cast(), out.len(), found.as_mut_ptr()) };
        assert_eq!(answer, OK, "the offer {offer:?} isn't a media type");
    }
    offers.join(", ")
}

/// Returns the best of these offers, or the status: 406 if the client accepts none, 503 if memory ran out. `accept` is the header, or
/// `None` for a request without it. Several lines are joined by a comma.
pub fn choose<'o>(accept: Option<&[u8]>, offers: &[&'o str]) -> Result<&'o str, u16> {
    let list = joined(offers);
    let mut best = 0;
    let (header, len) = accept.map_or((std::ptr::null(), 0), |accept| (accept.as_ptr(), accept.len()));
    // SAFETY: each pointer is to a block of the length given; the header's is null only if there is none.
    let answer = unsafe { mime_best(header.cast(), len, list.as_ptr().cast(), list.len(), &mut best) };
    match answer {
        OK => Ok(offers[best]),
        NOT_ACCEPTABLE => Err(406),
        _ => Err(503),
    }
}

fn main() {
    let accept = std::env::args_os().nth(1);
    match choose(accept.as_deref().map(OsStrExt::as_bytes), &TYPES) {
        Ok(offer) => println!("200 {offer}"),
        Err(status) => println!("{status}"),
    }
}
