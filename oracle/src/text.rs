//! Ours: sheets, listings and the commands' text.
use crate::cell::Cell;
use crate::history::{History, is_scalar};
use crate::number::Number;
use crate::vm::vcell::VCell;
use std::fmt::Write;

pub struct Sheet {
    pub chunk: usize,
    pub slots: usize,
    pub data: Vec<Cell>,
}

pub fn hex(text: &str) -> String {
    text.bytes().map(|it| format!("{:02x}", it)).collect()
}

fn unhex(text: &str) -> String {
    assert!(text.len().is_multiple_of(2), "odd hex: {}", text);
    assert!(
        text.bytes()
            .all(|it| matches!(it, b'0'..=b'9' | b'a'..=b'f')),
        "hex: {}",
        text
    );
    let bytes = (0..text.len())
        .step_by(2)
        .map(|it| u8::from_str_radix(&text[it..it + 2], 16).unwrap())
        .collect();
    String::from_utf8(bytes).expect("UTF-8")
}

fn unsigned(text: &str) -> u32 {
    let value: u32 = text.parse().expect("unsigned 32");
    assert_eq!(value.to_string(), text, "decimal");
    value
}

fn signed(text: &str) -> i64 {
    let value: i64 = text.parse().expect("signed 64");
    assert_eq!(value.to_string(), text, "decimal");
    value
}

fn bit(text: &str) -> bool {
    match text {
        "0" => false,
        "1" => true,
        _ => panic!("bool: {}", text),
    }
}

fn letter(text: &str) -> char {
    char::from_u32(unsigned(text)).expect("char")
}

/// One datum from the lines that follow.
pub fn datum<'a>(lines: &mut impl Iterator<Item = &'a str>) -> Cell {
    node(lines.next().expect("cut short"), lines)
}

fn node<'a>(line: &str, lines: &mut impl Iterator<Item = &'a str>) -> Cell {
    let (kind, rest) = line
        .split_once('=')
        .unwrap_or_else(|| panic!("line: {}", line));
    let bare = |cell: Cell| {
        assert!(rest.is_empty(), "line: {}", line);
        cell
    };
    match kind {
        "bool" => Cell::Bool(bit(rest)),
        "char" => Cell::Char(letter(rest)),
        "num" => Cell::Number(Number::Fixnum(signed(rest))),
        "str" => Cell::String(unhex(rest)),
        "sym" => Cell::Symbol(unhex(rest)),
        "ident" => {
            let (scope, name) = rest.split_once(':').expect("ident");
            Cell::Identifier {
                name: unhex(name),
                scope: unsigned(scope),
            }
        }
        "nil" => bare(Cell::Nil),
        "eof" => bare(Cell::Eof),
        "undef" => bare(Cell::Undefined),
        "void" => bare(Cell::Void),
        "pair" => {
            assert!(rest.is_empty(), "line: {}", line);
            let car = datum(lines);
            let cdr = datum(lines);
            Cell::new_pair(car, cdr)
        }
        "vec" => Cell::Vector((0..unsigned(rest)).map(|_| datum(lines)).collect()),
        "def" => Cell::DatumDef(unsigned(rest), Box::new(datum(lines))),
        "ref" => Cell::DatumRef(unsigned(rest)),
        _ => panic!("line: {}", line),
    }
}

/// The node lines of a datum.
pub fn node_lines(cell: &Cell) -> Vec<String> {
    let mut lines = vec![];
    push_lines(cell, &mut lines);
    lines
}

fn push_lines(cell: &Cell, lines: &mut Vec<String>) {
    match cell {
        Cell::Bool(value) => lines.push(format!("bool={}", *value as u8)),
        Cell::Char(value) => lines.push(format!("char={}", *value as u32)),
        Cell::Number(Number::Fixnum(value)) => lines.push(format!("num={}", value)),
        Cell::String(text) => lines.push(format!("str={}", hex(text))),
        Cell::Symbol(name) => lines.push(format!("sym={}", hex(name))),
        Cell::Identifier { name, scope } => lines.push(format!("ident={}:{}", scope, hex(name))),
        Cell::Nil => lines.push("nil=".into()),
        Cell::Eof => lines.push("eof=".into()),
        Cell::Undefined => lines.push("undef=".into()),
        Cell::Void => lines.push("void=".into()),
        Cell::Pair(car, cdr) => {
            lines.push("pair=".into());
            push_lines(car, lines);
            push_lines(cdr, lines);
        }
        Cell::Vector(all) => {
            lines.push(format!("vec={}", all.len()));
            all.iter().for_each(|it| push_lines(it, lines));
        }
        Cell::DatumDef(label, inner) => {
            lines.push(format!("def={}", label));
            push_lines(inner, lines);
        }
        Cell::DatumRef(label) => lines.push(format!("ref={}", label)),
        Cell::Continuation | Cell::Macro | Cell::Procedure(_) => panic!("no datum: {:?}", cell),
    }
}

/// A good sheet. Panics on any other.
pub fn sheet(text: &str) -> Sheet {
    assert!(text.ends_with('\n'), "the last line has no end");
    let mut lines = text[..text.len() - 1].split('\n');
    let mut head = |key: &str| {
        let line = lines.next().expect("cut short");
        unsigned(
            line.strip_prefix(key)
                .unwrap_or_else(|| panic!("line: {}", line)),
        ) as usize
    };
    let chunk = head("chunk=");
    let slots = head("slots=");
    let mut data = vec![];
    loop {
        match lines.next().expect("cut short") {
            "end=" => break,
            line => data.push(node(line, &mut lines)),
        }
    }
    assert!(lines.next().is_none(), "lines after the end");
    Sheet { chunk, slots, data }
}

pub fn sheet_text(sheet: &Sheet) -> String {
    let mut out = format!("chunk={}\nslots={}\n", sheet.chunk, sheet.slots);
    for datum in &sheet.data {
        for line in node_lines(datum) {
            out.push_str(&line);
            out.push('\n');
        }
    }
    out.push_str("end=\n");
    out
}

/// What the program `sheet` prints for a good sheet.
pub fn run_sheet(sheet: &Sheet) -> String {
    let mut history = History::new(sheet.chunk);
    let mut out = String::new();
    for datum in &sheet.data {
        let root = history.put(datum);
        if history.capacity() > sheet.slots {
            return "refused=16\n".into();
        }
        writeln!(out, "root={}", root).unwrap();
    }
    history.check();
    out + &listing(&history)
}

/// A cell as a listing shows it; a slot as `@N`.
pub fn cell_text(cell: &VCell) -> String {
    match cell {
        VCell::Bool(value) => format!("bool:{}", *value as u8),
        VCell::Char(value) => format!("char:{}", *value as u32),
        VCell::Number(Number::Fixnum(value)) => format!("num:{}", value),
        VCell::Nil => "nil".into(),
        VCell::Eof => "eof".into(),
        VCell::Undefined => "undef".into(),
        VCell::Void => "void".into(),
        VCell::Pair(car, cdr) => format!("pair:{},{}", car, cdr),
        VCell::String(text) => format!("str:{}", hex(&text.borrow())),
        VCell::Symbol(name) => format!("sym:{}", hex(name)),
        VCell::Vector(vector) => {
            let all: Vec<_> = (0..vector.len())
                .map(|it| cell_text(&vector.get(it).unwrap()))
                .collect();
            format!("vec:{}", all.join(","))
        }
        VCell::Ptr(slot) => format!("@{}", slot),
        other => panic!("no cell of ours: {:?}", other),
    }
}

/// A scalar, a pair or a slot, from the text that a listing has for it.
pub fn value(text: &str) -> VCell {
    if let Some(slot) = text.strip_prefix('@') {
        return VCell::Ptr(unsigned(slot) as usize);
    }
    match text.split_once(':') {
        Some(("bool", rest)) => VCell::Bool(bit(rest)),
        Some(("char", rest)) => VCell::Char(letter(rest)),
        Some(("num", rest)) => VCell::Number(Number::Fixnum(signed(rest))),
        Some(("pair", rest)) => {
            let (car, cdr) = rest.split_once(',').expect("pair");
            VCell::Pair(unsigned(car) as usize, unsigned(cdr) as usize)
        }
        None => match text {
            "nil" => VCell::Nil,
            "eof" => VCell::Eof,
            "undef" => VCell::Undefined,
            "void" => VCell::Void,
            _ => panic!("value: {}", text),
        },
        _ => panic!("value: {}", text),
    }
}

fn numbers(all: &[usize]) -> String {
    all.iter()
        .map(|it| it.to_string())
        .collect::<Vec<_>>()
        .join(",")
}

/// The listing without the roots.
pub fn listing(history: &History) -> String {
    let mut out = String::new();
    writeln!(out, "capacity={}", history.capacity()).unwrap();
    writeln!(out, "free={}", history.free_count()).unwrap();
    writeln!(out, "freelist={}", numbers(&history.free_list())).unwrap();
    for slot in 0..history.capacity() {
        let text = match history.is_used(slot) {
            true => cell_text(history.cell(slot)),
            false => "free".into(),
        };
        writeln!(out, "slot{}={}", slot, text).unwrap();
    }
    out
}

/// The listing, the symbol table and the states.
pub fn dump(history: &History) -> String {
    let mut out = listing(history);
    for (name, scope, slot) in history.symbols() {
        writeln!(out, "entry={}:{}:{}", scope, hex(&name), slot).unwrap();
    }
    let states: String = history.states().iter().map(|it| it.to_string()).collect();
    writeln!(out, "states={}", states).unwrap();
    out
}

pub const NODES: usize = 4096;
pub const LABELS: usize = 64;

/// The answer to `read`.
pub fn read_answer(history: &History, value: &VCell) -> String {
    match history.read_within(value, NODES) {
        Some(cell) if crate::history::label_count(&cell) <= LABELS => {
            format!("datum={}", node_lines(&cell).join(";"))
        }
        _ => "refused=12".into(),
    }
}

/// Reads a history and answers each command.
pub fn run_commands(input: &str, mut answer: impl FnMut(&str)) {
    let mut history: Option<History> = None;
    let mut lines = input.lines();
    while let Some(line) = lines.next() {
        let words: Vec<&str> = line.split_whitespace().collect();
        macro_rules! here {
            () => {
                history.as_mut().expect("setup comes first")
            };
        }
        match words.as_slice() {
            ["---"] => answer("---"),
            ["setup", chunk] => {
                history = Some(History::new(unsigned(chunk) as usize));
                answer("ok");
            }
            ["put", count] => {
                let count = unsigned(count) as usize;
                let own: Vec<&str> = lines.by_ref().take(count).collect();
                assert_eq!(own.len(), count, "cut short");
                let mut own = own.into_iter();
                let datum = datum(&mut own);
                assert!(own.next().is_none(), "nodes left over");
                let slot = here!().put(&datum);
                here!().check();
                answer(&format!("slot={}", slot));
            }
            ["collect"] => {
                here!().collect(&[]);
                here!().check();
                answer("ok");
            }
            ["collect", roots] => {
                let roots: Vec<usize> = roots.split(',').map(|it| unsigned(it) as usize).collect();
                here!().collect(&roots);
                here!().check();
                answer("ok");
            }
            ["cellstore", slot, given] => {
                let given = value(given);
                assert!(
                    is_scalar(&given) || given.is_pair(),
                    "cell store of {:?}",
                    given
                );
                here!().cell_store(unsigned(slot) as usize, given);
                here!().check();
                answer("ok");
            }
            ["elemstore", slot, index, given] => {
                let (slot, index) = (unsigned(slot) as usize, unsigned(index) as usize);
                here!().element_store(slot, index, value(given));
                here!().check();
                answer("ok");
            }
            ["read", given] => answer(&read_answer(here!(), &value(given))),
            ["eqv", left, right] => {
                answer(&here!().eqv(&value(left), &value(right)).to_string());
            }
            ["equal", left, right] => {
                answer(&match here!().equal(&value(left), &value(right)) {
                    Ok(yes) => yes.to_string(),
                    Err(crate::Stop::Steps) => "stopped=steps".into(),
                    Err(crate::Stop::Stack) => "stopped=stack".into(),
                });
            }
            ["dump"] => answer(dump(here!()).trim_end_matches('\n')),
            _ => panic!("command: {}", line),
        }
    }
}
