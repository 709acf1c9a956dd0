//! Ours: random sheets and histories, the same for the same seed.
use crate::cell::Cell;
use crate::history::{History, node_count};
use crate::number::Number;
use crate::text::{Sheet, cell_text, node_lines};
use crate::vm::vcell::VCell;

/// The most slots that a sheet or a history needs.
pub const SLOTS: usize = 192;

/// SplitMix64.
pub struct Rng(u64);

impl Rng {
    pub fn new(seed: u64) -> Rng {
        Rng(seed)
    }

    pub fn draw(&mut self) -> u64 {
        self.0 = self.0.wrapping_add(0x9e37_79b9_7f4a_7c15);
        let mut z = self.0;
        z = (z ^ (z >> 30)).wrapping_mul(0xbf58_476d_1ce4_e5b9);
        z = (z ^ (z >> 27)).wrapping_mul(0x94d0_49bb_1331_11eb);
        z ^ (z >> 31)
    }

    /// Below `n`, which is not 0.
    pub fn below(&mut self, n: usize) -> usize {
        (self.draw() % n as u64) as usize
    }

    /// From `low` to `high`, both included.
    pub fn within(&mut self, low: usize, high: usize) -> usize {
        low + self.below(high - low + 1)
    }

    /// True in `n` of 100 cases.
    pub fn chance(&mut self, n: usize) -> bool {
        self.below(100) < n
    }

    pub fn pick<'a, T>(&mut self, all: &'a [T]) -> &'a T {
        &all[self.below(all.len())]
    }

    /// An index, by weights that are not all 0.
    fn weighted(&mut self, weights: &[usize]) -> usize {
        let mut at = self.below(weights.iter().sum());
        for (index, weight) in weights.iter().enumerate() {
            if at < *weight {
                return index;
            }
            at -= weight;
        }
        unreachable!()
    }
}

const CHUNKS: [usize; 6] = [4, 8, 12, 16, 32, 64];
const NAMES: [&str; 9] = ["", "a", "b", "foo", "bar", "é", "λx", "日本", "𝄞"];
const SCOPES: [u32; 5] = [0, 1, 2, 7, u32::MAX];
const LABELS: [u32; 7] = [0, 0, 1, 2, 3, 10, u32::MAX];
const LETTERS: [&str; 12] = [
    "a", "b", "Z", "0", " ", "\n", "\0", "é", "ß", "€", "漢", "𝄞",
];
const CHARS: [u32; 11] = [
    0, 10, 65, 97, 127, 128, 0x7ff, 0xd7ff, 0xe000, 0xffff, 0x10_ffff,
];
const NUMBERS: [i64; 8] = [0, 1, 2, 3, -1, 10, i64::MIN, i64::MAX];

/// How a datum leans: weights of pair, vector, definition, reference,
/// symbol, string, other scalar; and how often the small pools are used.
struct Lean {
    inner: [usize; 3],
    leaf: [usize; 4],
    small: usize,
    /// Leaves are references, 1 and nil only.
    plain: bool,
}

fn lean(rng: &mut Rng) -> Lean {
    match rng.below(8) {
        0 => Lean {
            inner: [10, 2, 1],
            leaf: [1, 2, 1, 8],
            small: 60,
            plain: false,
        },
        1 => Lean {
            inner: [3, 8, 2],
            leaf: [2, 2, 2, 6],
            small: 40,
            plain: false,
        },
        2 => Lean {
            inner: [6, 3, 8],
            leaf: [8, 2, 2, 5],
            small: 60,
            plain: false,
        },
        3 => Lean {
            inner: [6, 2, 2],
            leaf: [1, 8, 2, 2],
            small: 50,
            plain: false,
        },
        4 => Lean {
            inner: [5, 4, 3],
            leaf: [3, 2, 7, 3],
            small: 50,
            plain: false,
        },
        5 => Lean {
            inner: [5, 3, 3],
            leaf: [4, 3, 3, 5],
            small: 90,
            plain: false,
        },
        6 => Lean {
            inner: [8, 0, 4],
            leaf: [5, 0, 0, 5],
            small: 100,
            plain: true,
        },
        _ => Lean {
            inner: [6, 3, 3],
            leaf: [5, 0, 0, 5],
            small: 100,
            plain: true,
        },
    }
}

fn text(rng: &mut Rng, small: usize) -> String {
    if rng.chance(small) {
        return rng.pick(&["", "a", "ab", "é"]).to_string();
    }
    let mut out = String::new();
    let size = rng.below(16);
    loop {
        let letter = rng.pick(&LETTERS);
        if out.len() + letter.len() > size {
            return out;
        }
        out.push_str(letter);
    }
}

fn scalar(rng: &mut Rng, small: usize) -> VCell {
    match rng.weighted(&[3, 3, 3, 7, 1, 1, 1]) {
        0 => VCell::Bool(rng.chance(50)),
        1 if rng.chance(small) => VCell::Char('a'),
        1 => loop {
            let code = match rng.chance(50) {
                true => *rng.pick(&CHARS),
                false => rng.below(0x11_0000) as u32,
            };
            if let Some(letter) = char::from_u32(code) {
                return VCell::Char(letter);
            }
        },
        2 => VCell::Nil,
        3 if rng.chance(small) => VCell::Number(Number::Fixnum(rng.within(0, 2) as i64)),
        3 if rng.chance(70) => VCell::Number(Number::Fixnum(*rng.pick(&NUMBERS))),
        3 => VCell::Number(Number::Fixnum(rng.draw() as i64)),
        4 => VCell::Eof,
        5 => VCell::Undefined,
        _ => VCell::Void,
    }
}

fn scalar_cell(rng: &mut Rng, small: usize) -> Cell {
    match scalar(rng, small) {
        VCell::Bool(value) => Cell::Bool(value),
        VCell::Char(value) => Cell::Char(value),
        VCell::Nil => Cell::Nil,
        VCell::Number(value) => Cell::Number(value),
        VCell::Eof => Cell::Eof,
        VCell::Undefined => Cell::Undefined,
        _ => Cell::Void,
    }
}

struct Maker<'a> {
    rng: &'a mut Rng,
    lean: Lean,
    /// The labels of which a definition has begun.
    begun: Vec<u32>,
}

impl Maker<'_> {
    fn leaf(&mut self) -> Cell {
        let mut weights = self.lean.leaf;
        if self.begun.is_empty() {
            weights[0] = 0;
        }
        match self.rng.weighted(&weights) {
            0 => Cell::DatumRef(*self.rng.pick(&self.begun)),
            1 => {
                let name = match self.rng.chance(self.lean.small) {
                    true => "foo".to_string(),
                    false => self.rng.pick(&NAMES).to_string(),
                };
                match self.rng.chance(60) {
                    true => Cell::Symbol(name),
                    false => Cell::Identifier {
                        name,
                        scope: *self.rng.pick(&SCOPES),
                    },
                }
            }
            2 => Cell::String(text(self.rng, self.lean.small)),
            _ if self.lean.plain && self.rng.chance(40) => Cell::Nil,
            _ if self.lean.plain => Cell::Number(Number::Fixnum(1)),
            _ => scalar_cell(self.rng, self.lean.small),
        }
    }

    /// A datum of exactly `size` nodes, which is not 0.
    fn datum(&mut self, size: usize) -> Cell {
        match size {
            1 if self.rng.chance(4) => return Cell::Vector(vec![]),
            1 => return self.leaf(),
            _ => {}
        }
        let mut weights = self.lean.inner;
        if size < 3 {
            weights = [0, self.lean.inner[1], self.lean.inner[2].max(1)];
        }
        match self.rng.weighted(&weights) {
            0 => {
                let car = match self.rng.chance(60) {
                    true => self.rng.within(1, (size - 2).min(3)),
                    false => self.rng.within(1, size - 2),
                };
                let first = self.datum(car);
                let second = match size - 1 - car {
                    1 if self.rng.chance(40) => Cell::Nil,
                    rest => self.datum(rest),
                };
                Cell::new_pair(first, second)
            }
            1 => {
                let len = self.rng.within(1, (size - 1).min(8));
                let mut left = size - 1;
                let mut all = vec![];
                for after in (0..len).rev() {
                    let own = match after {
                        0 => left,
                        _ if self.rng.chance(60) => 1,
                        _ => self.rng.within(1, left - after),
                    };
                    left -= own;
                    all.push(self.datum(own));
                }
                Cell::Vector(all)
            }
            _ => {
                let label = *self.rng.pick(&LABELS);
                if !self.begun.contains(&label) {
                    self.begun.push(label);
                }
                Cell::DatumDef(label, Box::new(self.datum(size - 1)))
            }
        }
    }
}

/// A good datum of exactly `size` nodes, vectors of at most 8.
pub fn datum(rng: &mut Rng, size: usize) -> Cell {
    let lean = lean(rng);
    Maker {
        rng,
        lean,
        begun: vec![],
    }
    .datum(size)
}

fn size(rng: &mut Rng) -> usize {
    match rng.below(4) {
        0 => rng.within(1, 4),
        1 => rng.within(1, 12),
        2 => rng.within(3, 25),
        _ => rng.within(1, 60),
    }
}

/// A good sheet. Its slots may be too few.
pub fn sheet(rng: &mut Rng) -> Sheet {
    let chunk = *rng.pick(&CHUNKS);
    let slots = match rng.chance(60) {
        true => rng.within(SLOTS.min(chunk * 4), SLOTS),
        false => rng.within(chunk, SLOTS),
    };
    let mut data: Vec<Cell> = vec![];
    for _ in 0..rng.below(7) {
        match data.is_empty() || rng.chance(80) {
            true => {
                let size = size(rng);
                data.push(datum(rng, size));
            }
            false => data.push(rng.pick(&data).clone()),
        }
    }
    Sheet { chunk, slots, data }
}

fn room(history: &History, chunk: usize) -> usize {
    let mut size = history.capacity();
    loop {
        let grown = (size / chunk * 3).div_ceil(2) * chunk;
        if grown > SLOTS {
            return history.free_count() + size - history.capacity();
        }
        size = grown;
    }
}

/// A good history that stays within `SLOTS` slots. Each comparison in it has
/// an answer; a reading may be too long, which is 12.
pub fn history(rng: &mut Rng) -> String {
    let chunk = *rng.pick(&CHUNKS);
    let mut history = History::new(chunk);
    history.set_steps(300_000);
    let mut out = vec![format!("setup {}", chunk)];
    let mut data: Vec<Cell> = vec![];
    let mut roots: Vec<usize> = vec![];
    let weights = match rng.chance(25) {
        // Many stores: cycles and sharing of all sorts.
        true => [12, 3, 40, 12, 10, 6, 20, 2, 2],
        false => [30, 8, 12, 10, 14, 10, 18, 3, 1],
    };
    for _ in 0..rng.within(5, 80) {
        let used = history.used();
        let kind = match used.is_empty() {
            true => rng.weighted(&[9, 1]),
            false => rng.weighted(&weights),
        };
        match kind {
            0 => {
                let datum = match rng.below(10) {
                    // One that was put before.
                    0..3 if !data.is_empty() => rng.pick(&data).clone(),
                    // What reading some slot gives: the same, unrolled otherwise.
                    3..5 if !used.is_empty() => {
                        let slot = VCell::Ptr(*rng.pick(&used));
                        match history.read_within(&slot, 60) {
                            Some(datum) => datum,
                            None => continue,
                        }
                    }
                    _ => {
                        let size = size(rng);
                        datum(rng, size)
                    }
                };
                if node_count(&datum) > room(&history, chunk) {
                    collect(rng, &mut history, &mut roots, &mut out);
                    continue;
                }
                let lines = node_lines(&datum);
                out.push(format!("put {}", lines.len()));
                out.extend(lines);
                roots.push(history.put(&datum));
                data.push(datum);
            }
            1 => collect(rng, &mut history, &mut roots, &mut out),
            2 => {
                let slot = *rng.pick(&used);
                if history.cell(slot).is_symbol() {
                    continue;
                }
                let value = match rng.chance(35) {
                    true => scalar(rng, 50),
                    false => VCell::Pair(*rng.pick(&used), *rng.pick(&used)),
                };
                out.push(format!("cellstore {} {}", slot, cell_text(&value)));
                history.cell_store(slot, value);
            }
            3 => {
                let vectors: Vec<(usize, usize)> = used
                    .iter()
                    .filter_map(|it| history.cell(*it).as_vector().ok().map(|v| (*it, v.len())))
                    .filter(|it| it.1 > 0)
                    .collect();
                if vectors.is_empty() {
                    continue;
                }
                let (slot, len) = *rng.pick(&vectors);
                let index = rng.below(len);
                let value = match rng.chance(40) {
                    true => scalar(rng, 50),
                    false => VCell::Ptr(*rng.pick(&used)),
                };
                out.push(format!(
                    "elemstore {} {} {}",
                    slot,
                    index,
                    cell_text(&value)
                ));
                history.element_store(slot, index, value);
            }
            4 => {
                let value = value(rng, &used, &roots);
                out.push(format!("read {}", cell_text(&value)));
            }
            5 | 6 => {
                let left = value(rng, &used, &roots);
                let right = match &left {
                    VCell::Ptr(slot) if rng.chance(75) => alike(rng, &history, &used, *slot),
                    _ => value(rng, &used, &roots),
                };
                let word = match kind {
                    5 => "eqv",
                    _ if history.equal(&left, &right).is_ok() => "equal",
                    _ => continue,
                };
                out.push(format!(
                    "{} {} {}",
                    word,
                    cell_text(&left),
                    cell_text(&right)
                ));
            }
            7 => out.push("dump".into()),
            _ => {
                // A ladder: each step shows the one below twice.
                let mut below = *rng.pick(&used);
                for _ in 0..rng.within(3, 14) {
                    let slot = *rng.pick(&used);
                    if history.cell(slot).is_symbol() {
                        continue;
                    }
                    let value = VCell::Pair(below, below);
                    out.push(format!("cellstore {} {}", slot, cell_text(&value)));
                    history.cell_store(slot, value);
                    below = slot;
                }
                out.push(format!("read @{}", below));
            }
        }
    }
    out.push("dump".into());
    out.join("\n") + "\n"
}

fn value(rng: &mut Rng, used: &[usize], roots: &[usize]) -> VCell {
    match rng.below(10) {
        0 => scalar(rng, 80),
        1..=4 if !roots.is_empty() => VCell::Ptr(*rng.pick(roots)),
        _ => VCell::Ptr(*rng.pick(used)),
    }
}

/// A slot whose cell is of the same kind, and half the time, if there is such
/// a one, `equal` without being `eqv`.
fn alike(rng: &mut Rng, history: &History, used: &[usize], slot: usize) -> VCell {
    let kind = history.cell(slot).type_text();
    let all: Vec<usize> = used
        .iter()
        .copied()
        .filter(|it| history.cell(*it).type_text() == kind)
        .collect();
    if rng.chance(50) {
        let left = VCell::Ptr(slot);
        let close: Vec<usize> = (0..all.len().min(8))
            .map(|_| *rng.pick(&all))
            .filter(|it| {
                let right = VCell::Ptr(*it);
                !history.eqv(&left, &right) && history.equal(&left, &right) == Ok(true)
            })
            .collect();
        if !close.is_empty() {
            return VCell::Ptr(*rng.pick(&close));
        }
    }
    VCell::Ptr(*rng.pick(&all))
}

fn collect(rng: &mut Rng, history: &mut History, roots: &mut Vec<usize>, out: &mut Vec<String>) {
    let used = history.used();
    let from: Vec<usize> = match rng.below(10) {
        0 => vec![],
        1 => used.clone(),
        2..=6 => roots.iter().copied().filter(|_| rng.chance(50)).collect(),
        _ if used.is_empty() => vec![],
        _ => (0..rng.within(1, 4)).map(|_| *rng.pick(&used)).collect(),
    };
    match from.is_empty() {
        true => out.push("collect".into()),
        false => {
            let text: Vec<String> = from.iter().map(|it| it.to_string()).collect();
            out.push(format!("collect {}", text.join(",")));
        }
    }
    history.collect(&from);
    roots.retain(|it| history.is_used(*it));
}
