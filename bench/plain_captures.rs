//! What a plain program does for captures, to compare the speed with: it judges (`check`) and shows (`show`) the few commands of `captures.py`'s
//! sessions of short packets, by layouts as data, and proves nothing. It refuses what it can't read with a word, and tells no line of a fault.
use std::collections::HashMap;
use std::fmt::Write as _;
use std::io::Write as _;

#[derive(Clone, Copy)]
enum Field {
    Int,
    Str,
    Id,
}
struct Row {
    set: u8,
    number: u8,
    name: &'static str,
    request: &'static [Field],
    reply: &'static [Field],
}
use Field::*;
static ROWS: &[Row] = &[
    Row {
        set: 1,
        number: 1,
        name: "VirtualMachine.Version",
        request: &[],
        reply: &[Str, Int, Int, Str, Str],
    },
    Row {
        set: 1,
        number: 7,
        name: "VirtualMachine.IDSizes",
        request: &[],
        reply: &[Int, Int, Int, Int, Int],
    },
    Row {
        set: 1,
        number: 8,
        name: "VirtualMachine.Suspend",
        request: &[],
        reply: &[],
    },
    Row {
        set: 11,
        number: 12,
        name: "ThreadReference.SuspendCount",
        request: &[Id],
        reply: &[Int],
    },
];
fn row(set: u8, number: u8) -> Option<&'static Row> {
    ROWS.iter().find(|r| r.set == set && r.number == number)
}

fn take<'a>(bytes: &mut &'a [u8], n: usize) -> Option<&'a [u8]> {
    if bytes.len() < n {
        return None;
    }
    let (front, rest) = bytes.split_at(n);
    *bytes = rest;
    Some(front)
}
fn number(bytes: &[u8]) -> u64 {
    bytes.iter().fold(0, |n, b| n << 8 | *b as u64)
}
fn field(field: Field, bytes: &mut &[u8], width: usize, out: Option<&mut String>) -> Option<()> {
    match field {
        Int => {
            let n = number(take(bytes, 4)?) as u32 as i32;
            if let Some(o) = out {
                write!(o, "{n}").ok()?;
            }
        }
        Id => {
            let n = number(take(bytes, width)?);
            if let Some(o) = out {
                write!(o, "#{n}").ok()?;
            }
        }
        Str => {
            let n = number(take(bytes, 4)?) as usize;
            let s = std::str::from_utf8(take(bytes, n)?).ok()?;
            if let Some(o) = out {
                write!(o, "{s:?}").ok()?;
            }
        }
    }
    Some(())
}
fn data(fields: &[Field], mut bytes: &[u8], width: usize, mut out: Option<&mut String>) -> Option<()> {
    for kind in fields {
        if let Some(o) = &mut out {
            o.push(' ');
        }
        field(*kind, &mut bytes, width, out.as_deref_mut())?;
    }
    bytes.is_empty().then_some(())
}

fn digit(c: u8) -> Option<u8> {
    match c {
        b'0'..=b'9' => Some(c - b'0'),
        b'a'..=b'f' => Some(c - b'a' + 10),
        b'A'..=b'F' => Some(c - b'A' + 10),
        _ => None,
    }
}

fn run(text: &str, shows: bool, out: &mut String) -> Result<(), String> {
    let mut ends = [Vec::new(), Vec::new()];
    let mut at = [0usize; 2];
    let mut greeted = [false; 2];
    let mut waits: HashMap<u32, (u8, u8)> = HashMap::new();
    let mut width = 8;
    for (index, line) in text.lines().enumerate() {
        let line_number = index + 1;
        let (end, digits) = if let Some(d) = line.strip_prefix("> ") {
            (0, d)
        } else if let Some(d) = line.strip_prefix("< ") {
            (1, d)
        } else {
            return Err(format!("line {line_number}: bad"));
        };
        let digits = digits.as_bytes();
        if digits.is_empty() || digits.len() % 2 == 1 {
            return Err(format!("line {line_number}: bad"));
        }
        ends[end].reserve(digits.len() / 2);
        for pair in digits.chunks_exact(2) {
            match (digit(pair[0]), digit(pair[1])) {
                (Some(a), Some(b)) => ends[end].push(a << 4 | b),
                _ => return Err(format!("line {line_number}: bad")),
            }
        }
        loop {
            let bytes = &ends[end][at[end]..];
            if !greeted[end] {
                if bytes.len() < 14 {
                    break;
                }
                if &bytes[..14] != b"JDWP-Handshake" {
                    return Err(format!("line {line_number}: handshake"));
                }
                greeted[end] = true;
                at[end] += 14;
                if shows {
                    out.push_str(if end == 0 { "> hello\n" } else { "< hello\n" });
                }
                continue;
            }
            if bytes.len() < 4 {
                break;
            }
            let length = number(&bytes[..4]) as usize;
            if length < 11 || length > 65536 {
                return Err(format!("line {line_number}: length"));
            }
            if bytes.len() < length {
                break;
            }
            let packet = &bytes[..length];
            at[end] += length;
            let id = number(&packet[4..8]) as u32;
            let body = &packet[11..];
            if packet[8] == 0x80 {
                let Some((set, num)) = waits.remove(&id) else {
                    return Err(format!("line {line_number}: unknown reply"));
                };
                if end == 0 {
                    return Err(format!("line {line_number}: wrong way"));
                }
                let error = number(&packet[9..11]);
                let row = row(set, num);
                if error == 0 {
                    if let Some(row) = row {
                        data(row.reply, body, width, None).ok_or("data")?;
                    }
                } else if !body.is_empty() {
                    return Err("data".into());
                }
                if (set, num) == (1, 7) {
                    width = number(&body[8..12]) as usize;
                }
                if shows {
                    match row {
                        Some(r) => write!(out, "< {id} reply {} {error}", r.name),
                        None => write!(out, "< {id} reply {set}.{num} {error}"),
                    }
                    .unwrap();
                    if error == 0 {
                        if let Some(r) = row {
                            data(r.reply, body, width, Some(out));
                        }
                    }
                    out.push('\n');
                }
            } else {
                let (set, num) = (packet[9], packet[10]);
                if end == 1 {
                    return Err(format!("line {line_number}: wrong way"));
                }
                if waits.insert(id, (set, num)).is_some() {
                    return Err(format!("line {line_number}: id in use"));
                }
                let row = row(set, num);
                if let Some(row) = row {
                    data(row.request, body, width, None).ok_or("data")?;
                }
                if shows {
                    match row {
                        Some(r) => write!(out, "> {id} {}", r.name),
                        None => write!(out, "> {id} {set}.{num}"),
                    }
                    .unwrap();
                    if let Some(r) = row {
                        data(r.request, body, width, Some(out));
                    }
                    out.push('\n');
                }
            }
        }
    }
    Ok(())
}
fn main() {
    let words: Vec<String> = std::env::args().collect();
    let text = std::fs::read_to_string(&words[2]).unwrap();
    let mut out = String::new();
    let done = run(&text, words[1] == "show", &mut out);
    if words[1] == "check" {
        out = match done {
            Ok(()) => "yes\n".into(),
            Err(e) => format!("no {e}\n"),
        };
    }
    std::io::stdout().write_all(out.as_bytes()).unwrap();
}
