//! A plain enumerator of four fixed shapes, without contracts. It writes the lines that `crdx sample` writes for them: each object
//! once, by the number of its nodes and then in the tree order. tools/cost.py measures crdx against it.
//!
//! Usage: `plain SHAPE COUNT`, which writes the first COUNT lines of a shape:
//!
//! - `optional`: twelve optional integers `a` to `l`, each 0 or 1, in objects of at most 8 nodes
//! - `million`: six optional integers `a` to `f`, each from 0 to 8, which are 1,000,000 objects
//! - `keys`: an optional map list `m` with the keys `host`, a string from `a` to `d`, and `port`, an integer from 0 to 3, in objects
//!   of at most 14 nodes
//! - `fifteen`: a list `t` of fifteen objects of three booleans `a`, `b` and `c`

use std::env;
use std::io::{self, Write};
use std::ops::ControlFlow::{self, Break, Continue};
use std::process::ExitCode;

/// No line of a shape is longer, so that memory for all lines is taken once.
const LINE_LENGTH: usize = 512;

/// The lines that are written, and how many more are wanted.
struct Lines {
    text: Vec<u8>,
    wanted: usize,
}

impl Lines {
    /// Counts one more line, or breaks off where no more are wanted.
    fn count(&mut self) -> ControlFlow<()> {
        if self.wanted == 0 {
            return Break(());
        }
        self.wanted -= 1;
        Continue(())
    }

    /// Writes a line of two parts, or breaks off where no more lines are wanted.
    fn put(&mut self, line: &[u8], end: &[u8]) -> ControlFlow<()> {
        self.count()?;
        self.text.extend_from_slice(line);
        self.text.extend_from_slice(end);
        Continue(())
    }
}

/// Optional integers of one digit, from the field `a` on.
struct Integers {
    last_field: u8,
    last_digit: u8,
}

/// An object and 7 integers are 8 nodes.
const MOST_FIELDS: u8 = 7;

fn optional(lines: &mut Lines) -> ControlFlow<()> {
    let integers = Integers {
        last_field: b'l',
        last_digit: b'1',
    };
    (0..=MOST_FIELDS).try_for_each(|fields| integers.put(lines, &mut b"{".to_vec(), b'a', fields))
}

fn million(lines: &mut Lines) -> ControlFlow<()> {
    let integers = Integers {
        last_field: b'f',
        last_digit: b'8',
    };
    (0..=6).try_for_each(|fields| integers.put(lines, &mut b"{".to_vec(), b'a', fields))
}

impl Integers {
    /// Writes the objects that begin with `line` and have `more` more fields, from `field` on.
    fn put(&self, lines: &mut Lines, line: &mut Vec<u8>, field: u8, more: u8) -> ControlFlow<()> {
        if field > self.last_field {
            return lines.put(line, b"}\n");
        }
        if more <= self.last_field - field {
            self.put(lines, line, field + 1, more)?;
        }
        if more == 0 {
            return Continue(());
        }
        let start = line.len();
        for value in b'0'..=self.last_digit {
            if start > 1 {
                line.push(b',');
            }
            line.extend_from_slice(&[b'"', field, b'"', b':', value]);
            self.put(lines, line, field + 1, more - 1)?;
            line.truncate(start);
        }
        Continue(())
    }
}

/// An object, its list and 4 items of 3 nodes are 14 nodes.
const MOST_ITEMS: u8 = 4;

fn keys(lines: &mut Lines) -> ControlFlow<()> {
    lines.put(b"{}", b"\n")?;
    (0..=MOST_ITEMS).try_for_each(|items| put_items(lines, &mut b"{\"m\":[".to_vec(), 0, items))
}

/// Writes the lists that begin with `line` and have `more` more items. Item 4 * host + port is there already where this bit of `used`
/// is set.
fn put_items(lines: &mut Lines, line: &mut Vec<u8>, used: u16, more: u8) -> ControlFlow<()> {
    if more == 0 {
        return lines.put(line, b"]}\n");
    }
    let start = line.len();
    for item in (0..16).filter(|item| used >> item & 1 == 0) {
        if used != 0 {
            line.push(b',');
        }
        push_item(line, item);
        put_items(lines, line, used | 1 << item, more - 1)?;
        line.truncate(start);
    }
    Continue(())
}

fn push_item(line: &mut Vec<u8>, item: u8) {
    line.extend_from_slice(b"{\"host\":\"");
    line.push(b'a' + item / 4);
    line.extend_from_slice(b"\",\"port\":");
    line.push(b'0' + item % 4);
    line.push(b'}');
}

/// The three booleans of an item, the first as the highest bit.
type Booleans = u8;

fn fifteen(lines: &mut Lines) -> ControlFlow<()> {
    let mut items = [0; 15];
    loop {
        lines.count()?;
        push_list(&mut lines.text, &items);
        advance(&mut items)?;
    }
}

fn push_list(text: &mut Vec<u8>, items: &[Booleans]) {
    text.extend_from_slice(b"{\"t\":[");
    for (index, item) in items.iter().enumerate() {
        if index > 0 {
            text.push(b',');
        }
        push_booleans(text, *item);
    }
    text.extend_from_slice(b"]}\n");
}

fn push_booleans(text: &mut Vec<u8>, item: Booleans) {
    text.extend_from_slice(b"{\"a\":");
    text.extend_from_slice(boolean(item & 4 != 0));
    text.extend_from_slice(b",\"b\":");
    text.extend_from_slice(boolean(item & 2 != 0));
    text.extend_from_slice(b",\"c\":");
    text.extend_from_slice(boolean(item & 1 != 0));
    text.push(b'}');
}

fn boolean(value: bool) -> &'static [u8] {
    if value {
        b"true"
    } else {
        b"false"
    }
}

/// Moves on to the next list, or breaks off at the last one.
fn advance(items: &mut [Booleans]) -> ControlFlow<()> {
    for item in items.iter_mut().rev() {
        if *item < 7 {
            *item += 1;
            return Continue(());
        }
        *item = 0;
    }
    Break(())
}

/// Writes lines of a shape, until there are no more or no more are wanted.
type Shape = fn(&mut Lines) -> ControlFlow<()>;

/// The shape and the count that the command line names.
fn arguments() -> Option<(Shape, usize)> {
    let mut words = env::args().skip(1);
    let shape: Shape = match words.next()?.as_str() {
        "optional" => optional,
        "million" => million,
        "keys" => keys,
        "fifteen" => fifteen,
        _ => return None,
    };
    let count = words.next()?.parse().ok()?;
    Some((shape, count))
}

fn main() -> ExitCode {
    let Some((shape, wanted)) = arguments() else {
        eprintln!("usage: plain optional|million|keys|fifteen COUNT");
        return ExitCode::FAILURE;
    };
    let mut lines = Lines {
        text: Vec::with_capacity(wanted * LINE_LENGTH),
        wanted,
    };
    // whether a shape ended or broke off, its lines are there
    let _ = shape(&mut lines);
    match io::stdout().write_all(&lines.text) {
        Ok(()) => ExitCode::SUCCESS,
        Err(_) => ExitCode::FAILURE,
    }
}
