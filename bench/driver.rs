//! Makes operations on media types, as bench/run asks for them.
//!
//! `driver OPERATION here ROUNDS` and `driver OPERATION there ROUNDS` make an operation on each line of standard input so many rounds, here
//! and over the Rust crate `mime`: the difference of two runs is what it costs. After a zero byte, standard input has the strings that an
//! operation on two takes, one a line. `driver OPERATION each` makes it on each of several such texts, which a byte 1 parts, and calls
//! `mark` after rounds that don't count, after some, and after twice as many. there.rs says what a driver with the Rust crate does.

use std::hint::black_box;
use std::io::{self, Read};

#[cfg(there)]
mod there;

/// A text on its way into a call, or the room for what it writes. A Global crosses as nothing.
#[repr(C)]
struct Slice(*const u8, usize);

extern "C" {
    fn mime_bench(operation: usize, texts: Slice, others: Slice, rounds: usize) -> usize;
    // The calls of include/mime.h.
    fn mime_content_type(value: Slice, out: Slice, found: *mut [usize; 7]) -> u32;
    fn mime_best(accept: Slice, offers: Slice, best: *mut usize) -> u32;
    fn mime_read(text: Slice, out: Slice, found: *mut [usize; 7]) -> u32;
    fn mime_list(text: Slice, out: Slice, length: *mut usize) -> u32;
    fn mime_equal(one: Slice, other: Slice, equal: *mut u8) -> u32;
    fn mime_accept(text: Slice, out: Slice, length: *mut usize, bad: *mut usize) -> u32;
    // Those that an earlier library may lack.
    #[cfg(call = "mime_order")]
    fn mime_order(accept: Slice, offers: Slice, order: *mut usize, order_len: usize, count: *mut usize) -> u32;
    #[cfg(call = "mime_boundary")]
    fn mime_boundary(value: Slice, out: Slice, size: *mut usize) -> u32;
    #[cfg(call = "mime_unescape")]
    fn mime_unescape(value: Slice, out: Slice, size: *mut usize) -> u32;
    #[cfg(call = "mime_set_parameter")]
    fn mime_set_parameter(text: Slice, name: Slice, value: Slice, out: Slice, size: *mut usize) -> u32;
}

fn slice(text: &str) -> Slice {
    Slice(text.as_ptr(), text.len())
}

/// What an operation is made on: two strings, and their lines.
struct Given<'a> {
    text: &'a str,
    other: &'a str,
    texts: Vec<&'a str>,
    others: Vec<&'a str>,
}

/// The operations of `mime_bench`, by their positions.
const OPERATIONS: &str =
    "read read_and_look_up look_up_charset look_up_boundary look_up_charset_str look_up_missing walk parts essence eq \
    eq_str cmp hash clone print items field serve boundary write_parameter negotiate weight_of covers unescape accept best order weight \
    write_charset write_boundary write_name hash_default rank";

/// The calls from C.
const CALLS: &[(&str, fn(&Given, usize) -> usize)] = &[
    ("call_read", |it, rounds| call_read(it, rounds, mime_read)),
    ("call_field", |it, rounds| call_read(it, rounds, mime_content_type)),
    ("call_best", |it, rounds| {
        let mut at = 0;
        sum(&it.texts, rounds, |text| {
            unsafe { mime_best(slice(text), slice(it.others[0]), &mut at) };
            at
        })
    }),
    #[cfg(call = "mime_order")]
    ("call_order", |it, rounds| {
        let (mut order, mut count) = ([0; 8], 0);
        sum(&it.texts, rounds, |text| {
            unsafe { mime_order(slice(text), slice(it.others[0]), order.as_mut_ptr(), order.len(), &mut count) };
            order[..count].first().map_or(0, |at| at + 10 * count)
        })
    }),
    ("call_items", |it, rounds| call(it, rounds, |text, out, length| unsafe { mime_list(slice(text), out, length) })),
    ("call_accept", |it, rounds| call(it, rounds, |text, out, length| unsafe { mime_accept(slice(text), out, length, &mut 0) })),
    #[cfg(call = "mime_boundary")]
    ("call_boundary", |it, rounds| call(it, rounds, |text, out, size| unsafe { mime_boundary(slice(text), out, size) })),
    #[cfg(call = "mime_unescape")]
    ("call_unescape", |it, rounds| call(it, rounds, |value, out, size| unsafe { mime_unescape(slice(value), out, size) })),
    #[cfg(call = "mime_set_parameter")]
    ("call_set_parameter", |it, rounds| {
        let (name, value) = (it.others[0], it.others[1]);
        call(it, rounds, |text, out, size| unsafe { mime_set_parameter(slice(text), slice(name), slice(value), out, size) })
    }),
    ("call_equal", |it, rounds| {
        let mut equal = 0;
        sum_of_two(&it.texts, &it.others, rounds, |text, other| {
            unsafe { mime_equal(slice(text), slice(other), &mut equal) };
            usize::from(equal)
        })
    }),
];

/// Reads by a call from C. What it finds is first the length, and third where the printed text begins, or 0 if the string is rejected.
fn call_read(it: &Given, rounds: usize, call: unsafe extern "C" fn(Slice, Slice, *mut [usize; 7]) -> u32) -> usize {
    let mut out = room(it);
    sum(&it.texts, rounds, |text| {
        let mut found = [0; 7];
        unsafe { call(slice(text), Slice(out.as_mut_ptr(), out.len()), &mut found) };
        (found[0] - found[2]).saturating_sub(1)
    })
}

/// Makes a call from C that says how many bytes it wrote: their sum.
fn call(it: &Given, rounds: usize, call: impl Fn(&str, Slice, *mut usize) -> u32) -> usize {
    let (mut out, mut size) = (room(it), 0);
    sum(&it.texts, rounds, |text| {
        call(text, Slice(out.as_mut_ptr(), out.len()), &mut size);
        size
    })
}

/// Room for what any call writes.
fn room(it: &Given) -> Vec<u8> {
    vec![0; 3 * it.texts.iter().chain(&it.others).map(|text| text.len()).max().unwrap_or(0) + 256]
}

/// The sum of what an operation returns for each of these things, so many rounds.
#[inline(always)]
fn sum<T>(all: &[T], rounds: usize, mut turn: impl FnMut(&T) -> usize) -> usize {
    (0..rounds).map(|_| all.iter().map(&mut turn).sum::<usize>()).sum()
}

#[inline(always)]
fn sum_of_two<T, U>(all: &[T], others: &[U], rounds: usize, mut turn: impl FnMut(&T, &U) -> usize) -> usize {
    (0..rounds).map(|_| all.iter().zip(others).map(|(one, other)| turn(one, other)).sum::<usize>()).sum()
}

/// Makes an operation here.
fn here(operation: &str, it: &Given, rounds: usize) -> usize {
    match OPERATIONS.split(' ').position(|name| name == operation) {
        Some(at) => unsafe { mime_bench(at, slice(it.text), slice(it.other), rounds) },
        None => CALLS.iter().find(|(name, _)| *name == operation).unwrap().1(it, rounds),
    }
}

fn given(text: &str) -> Given<'_> {
    let (text, other) = text.split_once('\0').unwrap();
    Given { text, other, texts: text.split('\n').collect(), others: other.split('\n').collect() }
}

/// Where valgrind writes what it has counted, and begins anew.
#[no_mangle]
#[inline(never)]
extern "C" fn mark() {
    black_box(());
}

fn main() -> io::Result<()> {
    let (words, mut input): (Vec<String>, _) = (std::env::args().collect(), String::new());
    io::stdin().read_to_string(&mut input)?;
    // Memory was used before, as in a program that has run for a while: else a block can grow where it is.
    drop(black_box((20..80).map(|length| "x".repeat(length)).collect::<Vec<_>>()).clone());
    match &words.iter().map(String::as_str).collect::<Vec<_>>()[1..] {
        [operation, "each"] => {
            for it in input.split('\u{1}').map(given) {
                for rounds in [4, 2, 4] {
                    black_box(here(operation, &it, rounds));
                    mark();
                }
            }
        }
        [operation, "here", rounds] => repeat(&given(&input), rounds, &|it, rounds| here(operation, it, rounds)),
        #[cfg(there)]
        words => there::run(words, &input)?,
        #[cfg(not(there))]
        _ => panic!("this driver is without the Rust crate"),
    }
    Ok(())
}

/// Makes an operation so many rounds. Until malloc's own lists are filled, the same request costs more or less.
fn repeat(it: &Given, rounds: &str, run: &dyn Fn(&Given, usize) -> usize) {
    for _ in 0..(20_000 / it.text.len()).clamp(1, 32) {
        black_box(run(it, 1));
    }
    black_box(run(it, rounds.parse().unwrap()));
}
