//! A reader of scripts in plain Rust, with no contracts and no proof: the statements of a text with their words, numbers and names
//! checked, the first reason why a text is no script and its line, and where each statement goes on. It keeps no list of words. It
//! reads a script from standard input, at the usual limits, so many times as its word says (1), and writes how many statements it
//! has, or the reason and the line.

use std::hint::black_box;
use std::io::Read;
use std::process::exit;

const MAX_STATEMENTS: usize = 1024;
const MAX_DEPTH: usize = 16;
const MAX_FIELDS: u64 = 62;

#[derive(Clone, Copy)]
#[allow(dead_code)]
enum Test {
    Less(u8, u8),
    Equal(u8, u8),
    Null(u8),
    Same(u8, u8),
}

#[derive(Clone, Copy)]
#[allow(dead_code)]
enum Statement {
    Work(u16),
    Set(u8, u64),
    Copy(u8, u8),
    Add(u8, u8),
    Sub(u8, u8),
    Job(u8),
    Out(u8),
    Get(u8, u8, u8),
    Put(u8, u8, u8),
    Load(u8, u8, u8),
    Store(u8, u8, u8),
    Move(u8, u8),
    Clear(u8),
    New(u8, u8, u8),
    If(Test),
    Else,
    Repeat(u16),
    End,
}

#[derive(Clone, Copy, Debug)]
enum Reason {
    Word,
    Number,
    Register,
    Variable,
    Shape,
    Block,
    Deep,
    Long,
    Empty,
}

/// Where a walk goes on from a statement, and where it skips what the statement begins.
#[derive(Clone, Copy, Default)]
#[allow(dead_code)]
struct Link {
    on: u64,
    past: u64,
    level: u64,
}

fn number(word: &[u8], low: u64, high: u64) -> Result<u64, Reason> {
    if word.is_empty() || word.len() > 20 {
        return Err(Reason::Number);
    }
    let mut value: u64 = 0;
    for byte in word {
        if !byte.is_ascii_digit() {
            return Err(Reason::Number);
        }
        let digit = u64::from(byte - b'0');
        value = value.checked_mul(10).and_then(|value| value.checked_add(digit)).ok_or(Reason::Number)?;
    }
    if (low..=high).contains(&value) { Ok(value) } else { Err(Reason::Number) }
}

fn index(word: &[u8], letter: u8, limit: u64, reason: Reason) -> Result<u8, Reason> {
    let digits = word.strip_prefix(&[letter]).ok_or(reason)?;
    if digits.len() > 1 && digits[0] == b'0' {
        return Err(reason);
    }
    match number(digits, 0, limit - 1) {
        Ok(value) => Ok(value as u8),
        Err(_) => Err(reason),
    }
}

fn count(word: &[u8]) -> Result<u16, Reason> {
    Ok(number(word, 1, 65_535)? as u16)
}

fn variable(word: &[u8]) -> Result<u8, Reason> {
    index(word, b'v', 8, Reason::Variable)
}

fn register(word: &[u8]) -> Result<u8, Reason> {
    index(word, b'r', 8, Reason::Register)
}

fn target(word: &[u8]) -> Result<u8, Reason> {
    match register(word)? {
        0 => Err(Reason::Register),
        reg => Ok(reg),
    }
}

fn field(word: &[u8]) -> Result<u8, Reason> {
    Ok(number(word, 0, MAX_FIELDS - 1)? as u8)
}

fn new(dest: &[u8], refs: &[u8], nums: &[u8]) -> Result<Statement, Reason> {
    let dest = target(dest)?;
    let (refs, nums) = (number(refs, 0, 255)?, number(nums, 0, 255)?);
    match refs + nums {
        1..=MAX_FIELDS => Ok(Statement::New(dest, refs as u8, nums as u8)),
        _ => Err(Reason::Shape),
    }
}

/// The statement of a line, where the line has one.
fn statement(line: &[u8]) -> Result<Option<Statement>, Reason> {
    let mut words = line.split(|byte| matches!(byte, b' ' | b'\t' | b'\r')).filter(|word| !word.is_empty());
    let Some(name) = words.next() else {
        return Ok(None);
    };
    let found = match (name, words.next(), words.next(), words.next()) {
        (b"else", None, ..) => Statement::Else,
        (b"end", None, ..) => Statement::End,
        (b"work", Some(ticks), None, _) => Statement::Work(count(ticks)?),
        (b"job", Some(var), None, _) => Statement::Job(variable(var)?),
        (b"out", Some(var), None, _) => Statement::Out(variable(var)?),
        (b"clear", Some(dest), None, _) => Statement::Clear(target(dest)?),
        (b"repeat", Some(turns), None, _) => Statement::Repeat(count(turns)?),
        (b"set", Some(var), Some(value), None) => Statement::Set(variable(var)?, number(value, 0, u64::MAX)?),
        (b"copy", Some(a), Some(b), None) => Statement::Copy(variable(a)?, variable(b)?),
        (b"add", Some(a), Some(b), None) => Statement::Add(variable(a)?, variable(b)?),
        (b"sub", Some(a), Some(b), None) => Statement::Sub(variable(a)?, variable(b)?),
        (b"move", Some(dest), Some(from), None) => Statement::Move(target(dest)?, register(from)?),
        (b"if", Some(b"null"), Some(reg), None) => Statement::If(Test::Null(register(reg)?)),
        (_, Some(a), Some(b), Some(c)) if words.next().is_none() => match name {
            b"get" => Statement::Get(variable(a)?, register(b)?, field(c)?),
            b"put" => Statement::Put(register(a)?, field(b)?, variable(c)?),
            b"load" => Statement::Load(target(a)?, register(b)?, field(c)?),
            b"store" => Statement::Store(register(a)?, field(b)?, register(c)?),
            b"new" => new(a, b, c)?,
            b"if" if b == b"<" => Statement::If(Test::Less(variable(a)?, variable(c)?)),
            b"if" if b == b"=" => Statement::If(Test::Equal(variable(a)?, variable(c)?)),
            b"if" if a == b"same" => Statement::If(Test::Same(register(b)?, register(c)?)),
            _ => return Err(Reason::Word),
        },
        _ => return Err(Reason::Word),
    };
    Ok(Some(found))
}

/// An open block: its line, whether it is an `if` without its `else`, and the place at which it begins.
struct Open {
    line: u32,
    takes_else: bool,
    repeats: bool,
    place: usize,
    middle: Option<usize>,
}

/// Notes what a statement does to the open blocks, and links the block that it ends.
fn nest(open: &mut Vec<Open>, links: &mut [Link], line: u32, place: usize, statement: Statement) -> Result<(), Reason> {
    match statement {
        Statement::If(_) | Statement::Repeat(_) => {
            if open.len() >= MAX_DEPTH {
                return Err(Reason::Deep);
            }
            let repeats = matches!(statement, Statement::Repeat(_));
            open.push(Open { line, takes_else: !repeats, repeats, place, middle: None });
        }
        Statement::Else => match open.last_mut() {
            Some(block) if block.takes_else => {
                block.takes_else = false;
                block.middle = Some(place);
            }
            _ => return Err(Reason::Block),
        },
        Statement::End => {
            let block = open.pop().ok_or(Reason::Block)?;
            links[block.place].past = block.middle.unwrap_or(place) as u64 + 1;
            if let Some(middle) = block.middle {
                links[middle].on = place as u64 + 1;
            }
            if block.repeats {
                links[place].on = block.place as u64;
            }
        }
        _ => {}
    }
    Ok(())
}

/// Past each `else` and `end`, which take no tick, from behind.
fn settle(statements: &[Statement], links: &mut [Link]) {
    for place in (0..statements.len()).rev() {
        let next = |place: u64| match statements.get(place as usize) {
            Some(Statement::Else | Statement::End) => links[place as usize].on,
            _ => place,
        };
        let (on, past) = (next(links[place].on), next(links[place].past));
        links[place] = Link { on, past, ..links[place] };
    }
}

fn script(text: &[u8]) -> Result<(Vec<Statement>, Vec<Link>), (Reason, u32)> {
    let (mut statements, mut links, mut open) = (Vec::new(), Vec::new(), Vec::new());
    for (line, text) in (1..).zip(text.split(|byte| *byte == b'\n')) {
        let text = text.split(|byte| *byte == b'#').next().unwrap_or(text);
        let at = |reason| (reason, line);
        let Some(found) = statement(text).map_err(at)? else {
            continue;
        };
        let place = statements.len();
        links.push(Link { on: place as u64 + 1, past: 0, level: open.len() as u64 });
        nest(&mut open, &mut links, line, place, found).map_err(at)?;
        if place >= MAX_STATEMENTS {
            return Err((Reason::Long, 0));
        }
        statements.push(found);
    }
    if let Some(block) = open.pop() {
        return Err((Reason::Block, block.line));
    }
    if statements.is_empty() {
        return Err((Reason::Empty, 0));
    }
    settle(&statements, &mut links);
    Ok((statements, links))
}

fn main() {
    let mut text = Vec::new();
    if std::io::stdin().read_to_end(&mut text).is_err() {
        exit(3);
    }
    let turns: u32 = std::env::args().nth(1).map_or(1, |word| word.parse().expect("a number of turns"));
    for _ in 1..turns {
        let _ = black_box(script(black_box(&text)));
    }
    match script(&text) {
        Ok((statements, links)) => println!("{} statements, {} links", statements.len(), black_box(links).len()),
        Err((reason, line)) => {
            println!("{reason:?} {line}");
            exit(5);
        }
    }
}
