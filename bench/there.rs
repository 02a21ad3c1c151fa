//! The same operations over the Rust crate `mime`, beside those of driver.rs.
//!
//! `driver OPERATION` prints the nanoseconds of a round here, and there, and the sums of what the operation returns here, and there.
//! Without words it is the program `mime_lines` over the Rust crate, written the same way.

use crate::{given, here, mime_bench, repeat, slice, sum, sum_of_two};
use mime::{Mime, Name, BOUNDARY, CHARSET, MULTIPART, STAR};
use std::cmp::Reverse;
use std::fmt::Write as _;
use std::hash::{DefaultHasher, Hash, Hasher};
use std::hint::black_box;
use std::io::{self, Write as _};
use std::time::{Duration, Instant};

/// What an operation is made on: lines, and the media types that they are; those that are rejected are left out.
struct Read<'a> {
    text: &'a str,
    texts: &'a [&'a str],
    others: &'a [&'a str],
    values: Vec<Mime>,
    against: Vec<Mime>,
}

type Operation = fn(&Read, usize) -> usize;

/// The operations, and what the calls from C are compared with.
const THERE: &[(&str, Operation)] = &[
    ("read", read_all),
    ("read_and_look_up", |it, rounds| sum(it.texts, rounds, |text| read(text).map_or(0, |mime| length_found(&mime, "charset")))),
    ("look_up_charset", |it, rounds| sum(&it.values, rounds, |mime| length_found(mime, CHARSET))),
    ("look_up_boundary", |it, rounds| sum(&it.values, rounds, |mime| length_found(mime, BOUNDARY))),
    ("look_up_charset_str", |it, rounds| sum(&it.values, rounds, |mime| length_found(mime, "charset"))),
    ("look_up_missing", |it, rounds| sum(&it.values, rounds, |mime| length_found(mime, "level"))),
    ("walk", |it, rounds| {
        sum(&it.values, rounds, |mime| mime.params().map(|(name, value)| name.as_str().len() + value.as_str().len()).sum())
    }),
    ("parts", |it, rounds| {
        let length = |name: Name| name.as_str().len();
        sum(&it.values, rounds, |mime| length(mime.type_()) + length(mime.subtype()) + mime.suffix().map_or(0, length))
    }),
    ("essence", |it, rounds| sum(&it.values, rounds, which_essence)),
    ("eq", |it, rounds| sum_of_two(&it.values, &it.against, rounds, |mime, other| (mime == other) as usize)),
    ("eq_str", |it, rounds| sum_of_two(&it.values, &it.others, rounds, |mime, text| (mime == text) as usize)),
    ("cmp", |it, rounds| sum_of_two(&it.values, &it.against, rounds, |mime, other| mime.cmp(other).is_lt() as usize)),
    ("hash", hash_all),
    ("hash_default", hash_all),
    ("clone", |it, rounds| sum(&it.values, rounds, |mime| black_box(&mime.clone()).as_ref().len())),
    ("print", |it, rounds| {
        let mut printed = String::new();
        sum(&it.values, rounds, |mime| {
            printed.clear();
            write!(printed, "{mime}").unwrap();
            printed.len()
        })
    }),
    // The release has no iterator, so this is what its user writes.
    ("items", list_all),
    // The Rust crate doesn't read header values as HTTP writes them: beside it stands reading a string, here.
    ("field", |it, rounds| unsafe { mime_bench(0, slice(it.text), slice(""), rounds) }),
    ("serve", |it, rounds| {
        sum(it.texts, rounds, |text| read(text).map_or(0, |mime| which_essence(&mime) + length_found(&mime, CHARSET) + boundary_len(&mime)))
    }),
    ("boundary", |it, rounds| sum(&it.values, rounds, boundary_len)),
    // The Rust crate writes no parameters, so this is what its user writes.
    ("write_parameter", |it, rounds| {
        sum(it.texts, rounds, |value| {
            let escaped = value.replace('\\', "\\\\").replace('"', "\\\"");
            read(&format!("{}; p=\"{escaped}\"", it.against[0])).map_or(0, |mime| mime.as_ref().len())
        })
    }),
    ("negotiate", |it, rounds| sum(it.texts, rounds, |text| best(text, &it.against).map_or(0, |at| at + 1))),
    ("best", |it, rounds| {
        let ranges = ranges(it.texts[0]);
        sum(it.texts, rounds, |_| merits(&ranges, &it.against).max().map_or(0, |(.., Reverse(at))| at + 1))
    }),
    ("weight_of", |it, rounds| sum(&it.values, rounds, |range| usize::from(weight_of(range)))),
    ("covers", |it, rounds| sum_of_two(&it.values, &it.against, rounds, |range, offer| covers(range, offer) as usize)),
    ("call_read", read_all),
    ("call_field", read_all),
    ("call_best", |it, rounds| sum(it.texts, rounds, |text| best(text, &entries(it.others[0]).collect::<Vec<_>>()).unwrap_or(0))),
    ("call_order", |it, rounds| {
        sum(it.texts, rounds, |text| {
            let order = order(text, &entries(it.others[0]).collect::<Vec<_>>());
            order.first().map_or(0, |at| at + 10 * order.len())
        })
    }),
    ("call_items", list_all),
    ("call_boundary", |it, rounds| sum(it.texts, rounds, |text| read(text).map_or(0, |mime| boundary_len(&mime)))),
    ("unescape", unescape_all),
    ("call_unescape", unescape_all),
    ("call_set_parameter", |it, rounds| {
        sum(it.texts, rounds, |text| {
            let Some(mime) = read(text) else { return 0 };
            let mut made = mime.essence_str().to_string();
            for (name, value) in mime.params().filter(|(name, _)| *name != it.others[0]) {
                write!(made, "; {name}=\"{value}\"").unwrap();
            }
            read(&format!("{made}; {}={}", it.others[0], it.others[1])).map_or(0, |mime| mime.as_ref().len())
        })
    }),
    ("call_equal", |it, rounds| sum_of_two(it.texts, it.others, rounds, |text, other| (read(text) == read(other)) as usize)),
];

fn read_all(it: &Read, rounds: usize) -> usize {
    sum(it.texts, rounds, |text| read(text).map_or(0, |mime| mime.as_ref().len()))
}

fn unescape_all(it: &Read, rounds: usize) -> usize {
    sum(it.texts, rounds, |value| {
        let mut bytes = value.chars();
        let meant = std::iter::from_fn(|| bytes.next().map(|it| if it == '\\' { bytes.next().unwrap_or(it) } else { it }));
        black_box(meant.collect::<String>()).len()
    })
}

fn list_all(it: &Read, rounds: usize) -> usize {
    sum(it.texts, rounds, |text| entries(text).map(|mime| mime.as_ref().len()).sum())
}

#[inline(always)]
fn read(text: &str) -> Option<Mime> {
    text.parse().ok()
}

#[inline(always)]
fn length_found<'a>(mime: &'a Mime, name: impl PartialEq<Name<'a>>) -> usize {
    mime.get_param(name).map_or(0, |value| value.as_str().len())
}

fn hash_all(it: &Read, rounds: usize) -> usize {
    sum(&it.values, rounds, |mime| {
        let mut hasher = DefaultHasher::new();
        mime.hash(&mut hasher);
        (hasher.finish() != 1) as usize
    })
}

/// Which of two strings the essence is: 1 or 2, or 0 if it is neither.
#[inline(always)]
fn which_essence(mime: &Mime) -> usize {
    match mime.essence_str() {
        "text/html" => 1,
        "application/json" => 2,
        _ => 0,
    }
}

/// The length of the boundary of a multipart body, or 0 if there is none.
#[inline(always)]
fn boundary_len(mime: &Mime) -> usize {
    if mime.type_() == MULTIPART {
        length_found(mime, BOUNDARY)
    } else {
        0
    }
}

#[inline(always)]
fn entries(text: &str) -> impl Iterator<Item = Mime> + '_ {
    text.split(',').filter_map(|entry| entry.trim().parse().ok())
}

/// What decides between offers: the weight, then the closeness of the range, then the position of the range, then that of the offer.
type Merit = (u16, (usize, usize), Reverse<usize>, Reverse<usize>);

/// The best offer for an Accept header, as a user of the Rust crate writes it.
fn best(text: &str, offers: &[Mime]) -> Option<usize> {
    merits(&ranges(text), offers).max().map(|(.., Reverse(at))| at)
}

/// All acceptable offers, from the best on.
fn order(text: &str, offers: &[Mime]) -> Vec<usize> {
    let mut order: Vec<Merit> = merits(&ranges(text), offers).collect();
    order.sort_unstable_by(|one, other| other.cmp(one));
    order.into_iter().map(|(.., Reverse(at))| at).collect()
}

fn ranges(text: &str) -> Vec<(u16, Mime)> {
    entries(text).map(|range| (weight_of(&range), range)).collect()
}

/// The merit of each acceptable offer.
#[inline(always)]
fn merits<'a>(ranges: &'a [(u16, Mime)], offers: &'a [Mime]) -> impl Iterator<Item = Merit> + 'a {
    let merit = move |offer| {
        let covering = ranges.iter().enumerate().filter(|(_, (_, range))| covers(range, offer));
        covering.map(|(at, (weight, range))| (closeness(range), *weight, Reverse(at))).max()
    };
    let merits = offers.iter().enumerate().filter_map(move |(at, offer)| merit(offer).map(|merit| (merit, at)));
    merits.map(|((close, weight, range), at)| (weight, close, range, Reverse(at))).filter(|(weight, ..)| *weight > 0)
}

/// The weight in thousandths.
fn weight_of(range: &Mime) -> u16 {
    range.get_param("q").map_or(1_000, |weight| weight.as_str().parse().map_or(0, |weight: f32| (weight * 1_000.0).round() as u16))
}

fn covers(range: &Mime, offer: &Mime) -> bool {
    (range.type_() == STAR || range.type_() == offer.type_())
        && (range.subtype() == STAR && range.suffix().is_none() || (range.subtype(), range.suffix()) == (offer.subtype(), offer.suffix()))
        && range.params().filter(|(name, _)| *name != "q").all(|(name, value)| offer.get_param(name) == Some(value))
}

/// The number of parts that a range names, and that of its parameters.
fn closeness(range: &Mime) -> (usize, usize) {
    let named = [range.type_(), range.subtype()].iter().filter(|part| **part != STAR).count();
    (named, range.params().filter(|(name, _)| *name != "q").count())
}

/// Adds the report on a line.
fn push_line(report: &mut String, line: &[u8]) {
    let Ok(text) = std::str::from_utf8(line) else {
        return push_row(report, "not text", "");
    };
    let mime = match text.parse::<Mime>() {
        Ok(mime) => mime,
        Err(error) => return writeln!(report, "bad {error}").unwrap(),
    };
    push_row(report, "ok ", mime.as_ref());
    push_row(report, "type ", mime.type_().as_str());
    push_row(report, "subtype ", mime.subtype().as_str());
    if let Some(suffix) = mime.suffix() {
        push_row(report, "suffix ", suffix.as_str());
    }
    for (name, value) in mime.params() {
        report.push_str("param ");
        report.push_str(name.as_str());
        push_row(report, "=", value.as_str());
    }
}

fn push_row(report: &mut String, label: &str, text: &str) {
    report.push_str(label);
    report.push_str(text);
    report.push('\n');
}

fn write_report(input: &[u8]) -> io::Result<()> {
    let mut report = String::new();
    if !input.is_empty() {
        let lines = input.strip_suffix(b"\n").unwrap_or(input).split(|byte| *byte == b'\n');
        lines.for_each(|line| push_line(&mut report, line));
    }
    io::stdout().write_all(report.as_bytes())
}

/// What of one side's operation is repeated, and so often.
type Side<'a> = &'a dyn Fn(usize) -> usize;

/// The least nanoseconds of each side, of many turns, in which the sides take turns: for so long, and at least five times.
fn least(sides: [Side; 2], rounds: [usize; 2], long: Duration) -> [f64; 2] {
    let (mut least, begun, mut turns) = ([f64::MAX; 2], Instant::now(), 0);
    while turns < 5 || begun.elapsed() < long {
        for ((run, rounds), least) in sides.iter().zip(rounds).zip(&mut least) {
            let begun = Instant::now();
            black_box(run(rounds));
            *least = least.min(begun.elapsed().as_nanos() as f64);
        }
        turns += 1;
    }
    least
}

/// The nanoseconds that a round takes on each side: what is made before is taken off.
fn time(sides: [Side; 2]) -> [f64; 2] {
    let before = least(sides, [0, 0], Duration::from_millis(50));
    // So often that it takes a while on each side, unless there is nothing to do.
    let mut rounds = [1, 1];
    loop {
        let all = least(sides, rounds, Duration::ZERO);
        let is_short = [0, 1].map(|side| rounds[side] < 1 << 16 && all[side] - before[side] < 50_000.0 + before[side]);
        if !is_short.contains(&true) {
            break;
        }
        rounds = [0, 1].map(|side| rounds[side] << is_short[side] as usize);
    }
    let all = least(sides, rounds, Duration::from_millis(250));
    [0, 1].map(|side| (all[side] - before[side]) / rounds[side] as f64)
}

/// What `driver` does with these words and this input.
pub fn run(words: &[&str], input: &str) -> io::Result<()> {
    let Some(operation) = words.first() else {
        return write_report(input.as_bytes());
    };
    let it = given(input);
    let values = |lines: &[&str]| lines.iter().filter_map(|text| read(text)).collect();
    let made = Read { text: it.text, texts: &it.texts, others: &it.others, values: values(&it.texts), against: values(&it.others) };
    let there = |rounds| THERE.iter().find(|(name, _)| name == operation).unwrap().1(&made, rounds);
    if let [_, "there", rounds] = words {
        repeat(&it, rounds, &|_, rounds| there(rounds));
        return Ok(());
    }
    let here = |rounds| here(operation, &it, rounds);
    let [time, time_there] = time([&here, &there]);
    println!("{time} {time_there} {} {}", here(4), there(4));
    Ok(())
}
