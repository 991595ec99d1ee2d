//! A source file of a crate as Rust, its contracts set aside, with a fault put into it or none.
//!
//!     set_aside SOURCE FILE [EDIT]
//!
//! prints SOURCE, which is FILE of its crate (src/lib.rt). What rustc lacks is dropped: `ghost use`, ghost fields, `requires`, `ensures` and the
//! attribute `tactic`.
//! The exports are plain functions, for slices do not cross the border to C in Rust.
//! An edit has lines `file:`, `old:` and `new:`, as those that the proof must refuse. What it says of other files is
//! passed over; where it does not fit FILE, the program ends with status 3.

use std::process::exit;

fn main() {
    let arguments: Vec<String> = std::env::args().skip(1).collect();
    let (source, file, edit) = match &arguments[..] {
        [source, file] => (source, file, None),
        [source, file, edit] => (source, file, Some(edit)),
        _ => stop(2, "usage: set_aside SOURCE FILE [EDIT]"),
    };
    let mut text = contents(source);
    if let Some(edit) = edit {
        text = match edited(text, file, &contents(edit)) {
            Ok(text) => text,
            Err(what) => stop(3, &what),
        };
    }
    print!("{}", rust(&without_contracts(&text)));
}

fn stop(status: i32, what: &str) -> ! {
    eprintln!("{what}");
    exit(status)
}

fn contents(path: &str) -> String {
    std::fs::read_to_string(path).unwrap_or_else(|error| stop(2, &format!("{path}: {error}")))
}

// ---------------------------------------------------------------------------------------------
// Faults
// ---------------------------------------------------------------------------------------------

/// The text after each pair of `old:` and `new:` of the file in turn, of which the old text must stand there once.
fn edited(mut text: String, file: &str, edit: &str) -> Result<String, String> {
    let (mut here, mut old, mut pairs) = (false, "", 0);
    for line in edit.lines() {
        if let Some(named) = line.strip_prefix("file: ") {
            here = named == file;
        } else if let Some(rest) = line.strip_prefix("old: ") {
            old = rest;
        } else if let Some(new) = line.strip_prefix("new:") {
            if here {
                text = replaced(&text, old, new.strip_prefix(' ').unwrap_or(new))?;
            }
            (old, pairs) = ("", pairs + 1);
        }
    }
    match pairs {
        0 => Err("it has no 'old:' and 'new:' pair".to_string()),
        _ => Ok(text),
    }
}

fn replaced(text: &str, old: &str, new: &str) -> Result<String, String> {
    let times = if old.is_empty() { 0 } else { text.matches(old).count() };
    match times {
        1 => Ok(text.replacen(old, new, 1)),
        times => Err(format!("its old text is there {times} times: {old}")),
    }
}

// ---------------------------------------------------------------------------------------------
// Contracts
// ---------------------------------------------------------------------------------------------

fn without_contracts(text: &str) -> String {
    let mut code = String::new();
    let mut rest = text;
    while !rest.is_empty() {
        let word = word_len(rest);
        let (kept, dropped) = match &rest[..word] {
            "pub" if rest[word..].starts_with(" ghost ") => (0, word),
            "ghost" => (0, ghost_len(rest)),
            "requires" | "ensures" => (0, word + clause_len(&rest[word..])),
            "" => (plain_len(rest), 0),
            _ => (word, 0),
        };
        code.push_str(&rest[..kept]);
        // a panic then tells the line of the source
        code.extend(rest[kept..kept + dropped].matches('\n'));
        rest = &rest[kept + dropped..];
    }
    code
}

fn word_len(text: &str) -> usize {
    text.find(|c: char| c != '_' && !c.is_alphanumeric()).unwrap_or(text.len())
}

/// An import up to its semicolon, or a field or a member with the comma or the semicolon behind it.
fn ghost_len(text: &str) -> usize {
    if text.starts_with("ghost use") {
        return text.find(';').map_or(text.len(), |end| end + 1);
    }
    let end = clause_len(text);
    end + usize::from(text[end..].starts_with([',', ';']))
}

/// A clause up to its closing brace; a name may stand before it.
fn clause_len(text: &str) -> usize {
    let mut depth = 0;
    for (at, c) in text.char_indices() {
        match c {
            '{' => depth += 1,
            '}' if depth == 1 => return at + 1,
            '}' => depth -= 1,
            _ => {}
        }
    }
    stop(2, "a clause has no end")
}

/// A comment or a literal, in which a word is none of the code, or one character.
fn plain_len(text: &str) -> usize {
    let end = |close: &str, from: usize| text[from..].find(close).map(|at| from + at + close.len());
    let character = text.chars().next().map_or(0, char::len_utf8);
    let found = match text {
        _ if text.starts_with("//") => text.find('\n'),
        _ if text.starts_with('"') => string_len(text),
        _ if text.starts_with("'\\") => end("'", 3),
        // a label has no second quote
        _ if text.starts_with('\'') && text.chars().nth(2) == Some('\'') => end("'", 2),
        _ => None,
    };
    found.unwrap_or(character)
}

fn string_len(text: &str) -> Option<usize> {
    let mut escaped = true;
    for (at, c) in text.char_indices() {
        match c {
            '"' if !escaped => return Some(at + 1),
            '\\' if !escaped => escaped = true,
            _ => escaped = false,
        }
    }
    None
}

// ---------------------------------------------------------------------------------------------
// Rust
// ---------------------------------------------------------------------------------------------

fn rust(code: &str) -> String {
    let mut text = String::new();
    for line in code.lines() {
        if !line.trim_start_matches(['#', '!']).starts_with("[tactic(") {
            text.push_str(&line.replace("#[unsafe(no_mangle)]", "").replace("pub extern \"C\" fn", "pub fn"));
        }
        text.push('\n');
    }
    text
}
