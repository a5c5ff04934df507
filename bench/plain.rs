//! The job of `asn1_check` in plain Rust, for comparing times: the same lines, verdicts and limits, and no proof.
//!
//!     rustc -O bench/plain.rs -o plain && ./plain < examples/x509.txt

use std::cmp::{max, min};
use std::io::{self, BufRead, BufReader, BufWriter, Write};
use std::process::ExitCode;

const LONGEST: usize = 4096;
const DEEPEST: usize = 16;
const MOST_COMPONENTS: usize = 256;
const CLASSES: [&str; 4] = ["Universal", "Application", "Context", "Private"];

#[derive(Clone, Copy, PartialEq, Eq, PartialOrd, Ord)]
struct Tag {
    class: u8,
    value: u32,
}

#[derive(Default)]
struct Tree {
    leaves: Vec<Tag>,
    has_empty_choice: bool,
}

impl Tree {
    fn is_open(&self) -> bool {
        self.has_empty_choice || self.leaves.is_empty()
    }

    fn smallest(&self) -> Tag {
        self.leaves.iter().copied().min().unwrap_or(Tag { class: 3, value: u32::MAX })
    }
}

/// A text that is read from the front.
struct Cursor<'a>(&'a [u8]);

impl Cursor<'_> {
    fn take(&mut self, byte: u8) -> bool {
        match self.0.split_first() {
            Some((first, rest)) if *first == byte => {
                self.0 = rest;
                true
            }
            _ => false,
        }
    }

    fn number(&mut self) -> Option<u32> {
        let count = self.0.iter().take_while(|byte| byte.is_ascii_digit()).count();
        let (digits, rest) = self.0.split_at(count);
        if digits.is_empty() || (digits[0] == b'0' && count > 1) {
            return None;
        }
        self.0 = rest;
        digits.iter().try_fold(0u32, |number, digit| number.checked_mul(10)?.checked_add(u32::from(digit - b'0')))
    }

    fn tree(&mut self, depth: usize, tree: &mut Tree) -> Option<()> {
        if self.take(b'(') {
            let depth = depth.checked_sub(1)?;
            if self.take(b')') {
                tree.has_empty_choice = true;
                return Some(());
            }
            loop {
                self.tree(depth, tree)?;
                if self.take(b')') {
                    return Some(());
                }
                if !self.take(b' ') {
                    return None;
                }
            }
        }
        let (letter, rest) = self.0.split_first()?;
        let class = match letter {
            b'U' => 0,
            b'A' => 1,
            b'C' => 2,
            b'P' => 3,
            _ => return None,
        };
        self.0 = rest;
        let value = self.number()?;
        tree.leaves.push(Tag { class, value });
        Some(())
    }
}

fn read_tree(text: &[u8], tree: &mut Tree) -> Option<()> {
    let mut cursor = Cursor(text);
    cursor.tree(DEEPEST, tree)?;
    cursor.0.is_empty().then_some(())
}

fn is_name(text: &[u8]) -> bool {
    (1..=64).contains(&text.len()) && text.iter().all(|b| b.is_ascii_alphanumeric() || *b == b'-' || *b == b'_')
}

#[derive(Clone, Copy)]
enum Bound {
    Free,
    Single(i128),
    Range(Option<i128>, Option<i128>),
}

fn read_integer(text: &[u8]) -> Option<i128> {
    let digits = text.strip_prefix(b"-").unwrap_or(text);
    let is_plain = match digits {
        [] => false,
        [b'0'] => digits.len() == text.len(),
        [first, rest @ ..] => (b'1'..=b'9').contains(first) && rest.iter().all(u8::is_ascii_digit),
    };
    if !is_plain {
        return None;
    }
    std::str::from_utf8(text).ok()?.parse().ok()
}

fn read_end(text: &[u8]) -> Option<Option<i128>> {
    if text.is_empty() { Some(None) } else { read_integer(text).map(Some) }
}

fn read_bound(text: &[u8]) -> Option<Bound> {
    if text == b"none" {
        return Some(Bound::Free);
    }
    match text.iter().position(|byte| *byte == b'.') {
        Some(dot) => {
            let end = text[dot + 1..].strip_prefix(b".")?;
            Some(Bound::Range(read_end(&text[..dot])?, read_end(end)?))
        }
        None => read_integer(text).map(Bound::Single),
    }
}

fn ends(bound: Bound) -> (Option<i128>, Option<i128>) {
    match bound {
        Bound::Free => (None, None),
        Bound::Single(number) => (Some(number), Some(number)),
        Bound::Range(start, end) => (start, end),
    }
}

fn write_common(text: &mut Vec<u8>, first: Bound, second: Bound) -> io::Result<()> {
    if let (Bound::Free, other) | (other, Bound::Free) = (first, second) {
        let (start, end) = ends(other);
        return match (other, start, end) {
            (Bound::Single(number), _, _) => write!(text, "{number}"),
            (_, start, end) => write_range(text, start, end),
        };
    }
    let ((a, b), (c, d)) = (ends(first), ends(second));
    let start = match (a, c) {
        (Some(a), Some(c)) => Some(max(a, c)),
        (a, c) => a.or(c),
    };
    let end = match (b, d) {
        (Some(b), Some(d)) => Some(min(b, d)),
        (b, d) => b.or(d),
    };
    match (start, end) {
        (Some(start), Some(end)) if start > end => write!(text, "nothing in common"),
        (Some(start), Some(end)) if start == end => write!(text, "{start}"),
        _ => write_range(text, start, end),
    }
}

fn write_range(text: &mut Vec<u8>, start: Option<i128>, end: Option<i128>) -> io::Result<()> {
    if let Some(start) = start {
        write!(text, "{start}")?;
    }
    write!(text, "..")?;
    if let Some(end) = end {
        write!(text, "{end}")?;
    }
    Ok(())
}

struct Component {
    may_be_absent: bool,
    tree: Tree,
}

struct Table {
    is_set: bool,
    name: Vec<u8>,
    components: Vec<Component>,
    is_understood: bool,
}

fn set_clash(components: &[Component]) -> Option<(usize, usize)> {
    let mut occurrences: Vec<(Tag, usize)> = Vec::new();
    for (place, component) in components.iter().enumerate() {
        occurrences.extend(component.tree.leaves.iter().map(|tag| (*tag, place)));
    }
    occurrences.sort_unstable();
    let twice = occurrences.windows(2).filter(|pair| pair[0].0 == pair[1].0 && pair[0].1 != pair[1].1);
    let least = twice.map(|pair| (pair[0].1, pair[1].1)).min();
    let open = components.iter().position(|component| component.tree.is_open()).map(|place| (0, max(place, 1)));
    let open = open.filter(|(_, second)| *second < components.len());
    least.into_iter().chain(open).min()
}

fn sequence_clash(components: &[Component]) -> Option<(usize, usize)> {
    let mut start = 0;
    while start < components.len() {
        let required = components[start..].iter().position(|component| !component.may_be_absent);
        let end = required.map_or(components.len(), |place| start + place + 1);
        if let Some((i, j)) = set_clash(&components[start..end]) {
            return Some((start + i, start + j));
        }
        start = end;
    }
    None
}

impl Table {
    fn write_head(&self, text: &mut Vec<u8>) {
        text.extend_from_slice(if self.is_set { b"set " } else { b"sequence " });
        text.extend_from_slice(&self.name);
        text.extend_from_slice(b": ");
    }

    fn write_end(&self, text: &mut Vec<u8>) -> io::Result<()> {
        self.write_head(text);
        if !self.is_understood {
            return writeln!(text, "not checked");
        }
        let clash = if self.is_set { set_clash(&self.components) } else { sequence_clash(&self.components) };
        match clash {
            Some((i, j)) => write!(text, "clash {i} {j}, ")?,
            None => write!(text, "no clash, ")?,
        }
        let ordered = self.components.windows(2).all(|pair| pair[0].tree.smallest() <= pair[1].tree.smallest());
        writeln!(text, "{}", if ordered { "canonical" } else { "not canonical" })
    }
}

#[derive(Default)]
struct Checker {
    table: Option<Table>,
    scratch: Tree,
}

impl Checker {
    fn answer(&mut self, line: &[u8], text: &mut Vec<u8>) -> io::Result<bool> {
        if line.is_empty() {
            return Ok(true);
        }
        if let Some(table) = &mut self.table {
            if line == b"end" {
                table.write_end(text)?;
                self.table = None;
                return Ok(true);
            }
            return Ok(add_component(table, line).is_some());
        }
        let mut parts = line.splitn(3, |byte| *byte == b' ');
        let (Some(keyword), Some(name)) = (parts.next(), parts.next()) else {
            return Ok(false);
        };
        if !is_name(name) {
            return Ok(false);
        }
        let rest = parts.next();
        match (keyword, rest) {
            (b"tree", Some(rest)) => self.answer_tree(name, rest, text),
            (b"bound", Some(rest)) => answer_bound(name, rest, text),
            (b"sequence", None) | (b"set", None) => {
                let is_set = keyword == b"set";
                self.table = Some(Table { is_set, name: name.to_vec(), components: Vec::new(), is_understood: true });
                Ok(true)
            }
            _ => Ok(false),
        }
    }

    fn answer_tree(&mut self, name: &[u8], rest: &[u8], text: &mut Vec<u8>) -> io::Result<bool> {
        let tree = &mut self.scratch;
        tree.leaves.clear();
        if read_tree(rest, tree).is_none() {
            return Ok(false);
        }
        tree.leaves.sort_unstable();
        let unique = tree.leaves.windows(2).all(|pair| pair[0] != pair[1]);
        let smallest = tree.leaves.first().copied().unwrap_or(Tag { class: 3, value: u32::MAX });
        text.extend_from_slice(b"tree ");
        text.extend_from_slice(name);
        let class = CLASSES[usize::from(smallest.class)];
        let uniqueness = if unique { "unique" } else { "repeated" };
        writeln!(text, ": {uniqueness}, smallest {class} {}, {} leaves", smallest.value, tree.leaves.len())?;
        Ok(true)
    }
}

fn answer_bound(name: &[u8], rest: &[u8], text: &mut Vec<u8>) -> io::Result<bool> {
    let parts: Vec<&[u8]> = rest.split(|byte| *byte == b' ').collect();
    let [first, b"&", second] = parts[..] else {
        return Ok(false);
    };
    let (Some(first), Some(second)) = (read_bound(first), read_bound(second)) else {
        return Ok(false);
    };
    text.extend_from_slice(b"bound ");
    text.extend_from_slice(name);
    text.extend_from_slice(b": ");
    write_common(text, first, second)?;
    text.push(b'\n');
    Ok(true)
}

fn add_component(table: &mut Table, line: &[u8]) -> Option<()> {
    let mut parts = line.splitn(3, |byte| *byte == b' ');
    let (name, presence, rest) = (parts.next()?, parts.next()?, parts.next()?);
    let may_be_absent = match presence {
        b"required" => false,
        b"optional" | b"default" => true,
        _ => return None,
    };
    let mut tree = Tree::default();
    read_tree(rest, &mut tree)?;
    if !is_name(name) || table.components.len() == MOST_COMPONENTS {
        return None;
    }
    table.components.push(Component { may_be_absent, tree });
    Some(())
}

fn check(mut reader: impl BufRead, mut writer: impl Write) -> io::Result<bool> {
    let (mut checker, mut line, mut text) = (Checker::default(), Vec::new(), Vec::new());
    let (mut number, mut all_understood) = (1u64, true);
    while reader.read_until(b'\n', &mut line)? > 0 {
        if line.last() == Some(&b'\n') {
            line.pop();
        }
        if line.len() > LONGEST || !checker.answer(&line, &mut text)? {
            writeln!(text, "line {number}: not understood")?;
            all_understood = false;
            if let Some(table) = &mut checker.table {
                table.is_understood = false;
            }
        }
        writer.write_all(&text)?;
        number = number.saturating_add(1);
        text.clear();
        line.clear();
    }
    if let Some(table) = &checker.table {
        table.write_head(&mut text);
        text.extend_from_slice(b"not checked\n");
        writer.write_all(&text)?;
        all_understood = false;
    }
    writer.flush()?;
    Ok(all_understood)
}

fn main() -> ExitCode {
    let reader = BufReader::with_capacity(32 * 1024, io::stdin().lock());
    match check(reader, BufWriter::new(io::stdout().lock())) {
        Ok(true) => ExitCode::SUCCESS,
        Ok(false) => ExitCode::from(1),
        Err(error) => {
            eprintln!("check: {error}");
            ExitCode::from(2)
        }
    }
}
