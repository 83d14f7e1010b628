//! Datoms and page ids as people write them.
//!
//! A datom is `ENTITY,ATTRIBUTE,VALUE,LASTWORD` or `d5` for `5,1,5,3`; `d0..d6` is seven datoms.
//! Numbers are decimal or start with 0x. A value is a number, a byte string as `"ab"` with `\xHH`
//! for bytes other than letters and digits, or `max`; one on the heap is the number that `append` gave. A page id is a number or `none`.

use harness::{byte_string, Datom, Word, MAX_VALUE, NONE};

/// The datom that document 01's examples call d(k).
fn example(k: u64) -> Datom {
    [k, 1, k, 3]
}

pub fn parse_number(text: &str) -> Result<u64, String> {
    let number = match text.strip_prefix("0x") {
        Some(digits) => u64::from_str_radix(digits, 16),
        None => text.parse(),
    };
    number.map_err(|_| format!("`{}` is not a 64-bit number", text))
}

pub fn parse_page_id(text: &str) -> Result<u64, String> {
    if text == "none" { Ok(NONE) } else { parse_number(text) }
}

pub fn show_page_id(page: u64) -> String {
    if page == NONE { "none".to_string() } else { page.to_string() }
}

/// The bytes of `"ab\x00"`.
pub fn parse_bytes(text: &str) -> Result<Vec<u8>, String> {
    let wrong = || format!("`{}` is not a byte string as \"ab\\x00\"", text);
    let inner = text.strip_prefix('"').and_then(|rest| rest.strip_suffix('"')).ok_or_else(wrong)?;
    let mut bytes = Vec::new();
    let mut rest = inner.as_bytes();
    while let [first, tail @ ..] = rest {
        match (first, tail) {
            (b'\\', [b'x', high, low, after @ ..]) => {
                let digits = [*high, *low];
                let digits = std::str::from_utf8(&digits).map_err(|_| wrong())?;
                bytes.push(u8::from_str_radix(digits, 16).map_err(|_| wrong())?);
                rest = after;
            }
            (letter, after) if letter.is_ascii_alphanumeric() => {
                bytes.push(*letter);
                rest = after;
            }
            _ => return Err(wrong()),
        }
    }
    Ok(bytes)
}

fn parse_value(text: &str) -> Result<u64, String> {
    if text == "max" {
        Ok(MAX_VALUE)
    } else if text.starts_with('"') {
        let bytes = parse_bytes(text)?;
        if bytes.len() > 7 {
            return Err(format!("{} has more than 7 bytes: `append` gives the word of a constant", text));
        }
        Ok(byte_string(&bytes))
    } else {
        parse_number(text)
    }
}

fn parse_example(text: &str) -> Result<u64, String> {
    parse_number(text.strip_prefix('d').ok_or_else(|| format!("`{}` is not a datom as d5", text))?)
}

pub fn parse_datom(text: &str) -> Result<Datom, String> {
    if text.starts_with('d') {
        return parse_example(text).map(example);
    }
    match text.split(',').collect::<Vec<_>>()[..] {
        [entity, attribute, value, last] => {
            Ok([parse_number(entity)?, parse_number(attribute)?, parse_value(value)?, parse_number(last)?])
        }
        _ => Err(format!("`{}` is not a datom as 5,1,5,3 or d5", text)),
    }
}

/// Reads a batch, in which `d0..d6` stands for seven datoms.
pub fn parse_batch(words: &[&str]) -> Result<Vec<Datom>, String> {
    let mut batch = Vec::new();
    for word in words {
        match word.split_once("..") {
            Some((first, last)) => batch.extend((parse_example(first)?..=parse_example(last)?).map(example)),
            None => batch.push(parse_datom(word)?),
        }
    }
    Ok(batch)
}

fn show_value(word: u64) -> String {
    match Word::of(word) {
        Word::Integer(number) => number.to_string(),
        Word::Bytes(bytes, length) => format!("\"{}\"", show_bytes(&bytes[..length])),
        Word::Max => "max".to_string(),
        Word::IntegerAt(_) | Word::BytesAt(_) | Word::Malformed => format!("{:#018x}", word),
    }
}

fn show_bytes(bytes: &[u8]) -> String {
    bytes.iter().map(|&byte| {
        if byte.is_ascii_alphanumeric() { (byte as char).to_string() } else { format!("\\x{:02x}", byte) }
    }).collect()
}

pub fn show_datom(datom: &Datom) -> String {
    format!("{},{},{},{}", datom[0], datom[1], show_value(datom[2]), datom[3])
}

/// Items with a space before each, so that none at all leaves nothing behind.
pub fn show_all<T>(items: &[T], show: impl Fn(&T) -> String) -> String {
    items.iter().map(|item| format!(" {}", show(item))).collect()
}
