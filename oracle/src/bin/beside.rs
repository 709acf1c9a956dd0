//! Times of the port's calls beside the original's, in one run: the same data put into both, the same calls made of both. It is
//! linked with the port's static library (./times builds and runs it). Times are printed, never tested; answers are.
use oracle::History;
use oracle::history::with_stack;
use oracle::text;
use oracle::vm::vcell::VCell;
use std::time::Instant;

const BYTES: usize = 65536;
const ELEMENTS: usize = 16384;

unsafe extern "C" {
    fn talvongre_setup(w: *mut u64, wl: usize, m: *mut u8, ml: usize, b: *mut u8, bl: usize, e: *mut u64, el: usize, chunk: u64) -> u32;
    fn talvongre_put(w: *mut u64, wl: usize, m: *mut u8, ml: usize, b: *mut u8, bl: usize, e: *mut u64, el: usize, s: *mut u64, sl: usize, d: *const u8, dl: usize, slot: &mut u64) -> u32;
    fn talvongre_collect(w: *mut u64, wl: usize, m: *mut u8, ml: usize, b: *mut u8, bl: usize, e: *mut u64, el: usize, s: *mut u64, sl: usize, r: *const u64, rl: usize) -> u32;
    fn talvongre_read(w: *const u64, wl: usize, m: *const u8, ml: usize, b: *const u8, bl: usize, e: *const u64, el: usize, s: *mut u64, sl: usize, o: *mut u8, ol: usize, kind: u64, a: u64, length: &mut u64) -> u32;
    fn talvongre_equal(w: *const u64, wl: usize, m: *const u8, ml: usize, b: *const u8, bl: usize, e: *const u64, el: usize, s: *mut u64, sl: usize, kind: u64, a: u64, kind2: u64, a2: u64, truth: &mut u64) -> u32;
    fn talvongre_cell_store(w: *mut u64, wl: usize, m: *const u8, ml: usize, b: *const u8, bl: usize, e: *const u64, el: usize, slot: u64, kind: u64, a: u64, b2: u64) -> u32;
    fn talvongre_element_store(w: *const u64, wl: usize, m: *const u8, ml: usize, b: *const u8, bl: usize, e: *mut u64, el: usize, slot: u64, k: u64, kind: u64, a: u64) -> u32;
    fn talvongre_used(w: *const u64, wl: usize, m: *const u8, ml: usize, b: *const u8, bl: usize, e: *const u64, el: usize, count: &mut u64) -> u32;
}

/// The port's heap in lent lists.
#[derive(Clone)]
struct Port {
    words: Vec<u64>,
    map: Vec<u8>,
    bytes: Vec<u8>,
    elems: Vec<u64>,
    scratch: Vec<u64>,
}

/// The four lists of a heap as pointers and lengths, and then the rest of a call.
macro_rules! port {
    ($f:ident, $p:expr $(, $rest:expr)*) => {
        unsafe {
            $f($p.words.as_mut_ptr(), $p.words.len(), $p.map.as_mut_ptr(), $p.map.len(), $p.bytes.as_mut_ptr(), $p.bytes.len(),
               $p.elems.as_mut_ptr(), $p.elems.len() $(, $rest)*)
        }
    };
}

fn datum_bytes(lines: &[String]) -> Vec<u8> {
    let mut out = Vec::new();
    for line in lines {
        let (key, value) = line.split_once('=').expect("node line");
        let number = || value.parse::<u32>().expect("number").to_le_bytes();
        match key {
            "nil" => out.push(1),
            "num" => {
                out.push(6);
                out.extend(value.parse::<i64>().expect("number").to_le_bytes());
            }
            "str" | "sym" => {
                out.push(if key == "str" { 7 } else { 8 });
                out.extend((value.len() as u32 / 2).to_le_bytes());
                out.extend((0..value.len()).step_by(2).map(|i| u8::from_str_radix(&value[i..i + 2], 16).expect("hex")));
            }
            "pair" => out.push(9),
            "vec" => {
                out.push(10);
                out.extend(number());
            }
            "def" => {
                out.push(12);
                out.extend(number());
            }
            _ => {
                out.push(13);
                out.extend(number());
            }
        }
    }
    out
}

impl Port {
    fn new(slots: usize, chunk: usize) -> Port {
        let mut port = Port {
            words: vec![0; 8 + 8 * slots],
            map: vec![0; slots.div_ceil(4)],
            bytes: vec![0; BYTES],
            elems: vec![0; 3 * ELEMENTS],
            scratch: vec![0; 8 * slots + 128],
        };
        assert_eq!(port!(talvongre_setup, port, chunk as u64), 0);
        port
    }

    fn put(&mut self, lines: &[String]) -> u64 {
        let (datum, mut slot) = (datum_bytes(lines), 0);
        let (s, n) = (self.scratch.as_mut_ptr(), self.scratch.len());
        assert_eq!(port!(talvongre_put, self, s, n, datum.as_ptr(), datum.len(), &mut slot), 0);
        slot
    }

    fn collect(&mut self, roots: &[u64]) {
        let (s, n) = (self.scratch.as_mut_ptr(), self.scratch.len());
        assert_eq!(port!(talvongre_collect, self, s, n, roots.as_ptr(), roots.len()), 0);
    }

    fn read(&mut self, slot: u64, out: &mut [u8]) -> u64 {
        let mut length = 0;
        let (s, n) = (self.scratch.as_mut_ptr(), self.scratch.len());
        assert_eq!(port!(talvongre_read, self, s, n, out.as_mut_ptr(), out.len(), 15, slot, &mut length), 0);
        length
    }

    fn equal(&mut self, left: u64, right: u64) -> bool {
        let mut truth = 2;
        let (s, n) = (self.scratch.as_mut_ptr(), self.scratch.len());
        assert_eq!(port!(talvongre_equal, self, s, n, 15, left, 15, right, &mut truth), 0);
        truth == 1
    }

    fn pair_store(&mut self, slot: u64, car: u64, cdr: u64) {
        assert_eq!(port!(talvongre_cell_store, self, slot, 9, car, cdr), 0);
    }

    fn slot_store(&mut self, slot: u64, index: u64, value: u64) {
        assert_eq!(port!(talvongre_element_store, self, slot, index, 15, value), 0);
    }

    /// The slots that show the same vector as this one.
    fn sharing(&self, slot: u64) -> Vec<u64> {
        let row = |s: usize| &self.words[8 + 8 * s..11 + 8 * s];
        (0..self.words[1]).filter(|s| row(*s as usize) == row(slot as usize)).collect()
    }

    fn used(&mut self) -> u64 {
        let mut count = 0;
        assert_eq!(port!(talvongre_used, self, &mut count), 0);
        count
    }
}

/// The least of several times, in microseconds; each time on something made anew.
fn least<T, A>(times: usize, mut make: impl FnMut() -> T, mut work: impl FnMut(&mut T) -> A) -> f64 {
    let mut best = f64::MAX;
    for _ in 0..times {
        let mut it = make();
        let start = Instant::now();
        std::hint::black_box(work(&mut it));
        best = best.min(start.elapsed().as_secs_f64() * 1e6);
    }
    best
}

fn lines(all: &[&str]) -> Vec<String> {
    all.iter().map(|it| it.to_string()).collect()
}

fn list(n: usize) -> Vec<String> {
    let mut out = Vec::new();
    for k in 0..n {
        out.extend(["pair=".to_string(), format!("num={k}")]);
    }
    out.push("nil=".into());
    out
}

fn vector(n: usize) -> Vec<String> {
    let mut out = vec![format!("vec={n}")];
    out.extend((0..n).map(|k| format!("num={k}")));
    out
}

fn nested(n: usize) -> Vec<String> {
    let mut out = vec!["vec=1".to_string(); n];
    out.push("nil=".into());
    out
}

/// Both heaps with the same data; the slots are held to be the same.
fn both(slots: usize, chunk: usize, data: &[Vec<String>]) -> (Port, History, Vec<u64>) {
    let (mut port, mut rust) = (Port::new(slots, chunk), History::new(chunk));
    let mut roots = Vec::new();
    for one in data {
        let cell = text::datum(&mut one.iter().map(|it| it.as_str()));
        let slot = rust.put(&cell) as u64;
        assert_eq!(port.put(one), slot);
        roots.push(slot);
    }
    (port, rust, roots)
}

/// Data until all slots are used, by what one of them takes.
fn full(slots: usize, one: impl Fn(usize) -> Vec<String>, takes: usize) -> Vec<Vec<String>> {
    let mut data: Vec<Vec<String>> = (0..slots / takes).map(one).collect();
    data.extend(vec![lines(&["nil="]); slots % takes]);
    data
}

fn collections() {
    println!("{:<34} {:>6} {:>5} {:>10} {:>10} {:>10} {:>7} {:>7}", "collection, microseconds", "slots", "kept", "whole", "less check", "the Rust", "ratio", "less");
    let text_of = |k: usize| vec![format!("str={}", format!("{:08x}{:08x}", k, k * 7).bytes().map(|b| format!("{b:02x}")).collect::<String>())];
    let ring = |_: usize| {
        let mut out = lines(&["def=0", "vec=8"]);
        out.extend(vec!["ref=0".to_string(); 8]);
        out
    };
    let pairs = |_: usize| lines(&["pair=", "nil=", "nil="]);
    let kinds: [(&str, Box<dyn Fn(usize) -> Vec<String>>, usize); 3] =
        [("pairs", Box::new(pairs), 3), ("strings of 16 bytes", Box::new(text_of), 1), ("vectors of 8 in two slots", Box::new(ring), 2)];
    for (name, make, takes) in &kinds {
        for chunked in [1, 2] {
            for slots in [1024, 4096] {
                let data = full(slots, make, *takes);
                let (port, _, roots) = both(slots, slots / chunked, &data);
                for (kept, step) in [("all", 1), ("half", 2), ("none", usize::MAX)] {
                    let chosen: Vec<u64> = roots.iter().copied().enumerate().filter(|(k, _)| step != usize::MAX && k % step == 0).map(|(_, s)| s).collect();
                    let slots_of: Vec<usize> = chosen.iter().map(|s| *s as usize).collect();
                    let ours = least(30, || port.clone(), |p| p.collect(&chosen));
                    let check = least(30, || port.clone(), |p| p.used());
                    let rust = least(15, || both(slots, slots / chunked, &data).1, |r| r.collect(&slots_of));
                    let title = format!("{name}{}", if chunked == 1 { "" } else { ", half by growth" });
                    println!("{title:<34} {slots:>6} {kept:>5} {ours:>10.1} {:>10.1} {rust:>10.1} {:>7.2} {:>7.2}", ours - check, ours / rust, (ours - check) / rust);
                }
            }
        }
    }
}

fn readings() {
    println!("\n{:<34} {:>6} {:>10} {:>10} {:>10} {:>7}", "reading, microseconds", "nodes", "whole", "less check", "the Rust", "less");
    let kinds: [(&str, fn(usize) -> Vec<String>); 3] =
        [("a list", |n| list((n - 1) / 2)), ("vectors in one another", |n| nested(n - 1)), ("a vector of numbers", |n| vector((n - 1).min(1024)))];
    for (name, make) in kinds {
        for nodes in [512, 1024, 2048, 4096] {
            let (port, rust, roots) = both(4096, 4096, &[make(nodes)]);
            let mut out = vec![0u8; 1 << 17];
            let ours = least(30, || port.clone(), |p| p.read(roots[0], &mut out));
            let check = least(30, || port.clone(), |p| p.used());
            let theirs = least(15, || (), |_| rust.read(&VCell::Ptr(roots[0] as usize)));
            println!("{name:<34} {nodes:>6} {ours:>10.1} {:>10.1} {theirs:>10.1} {:>7.2}", ours - check, (ours - check) / theirs);
        }
    }
}

/// A ring of so many pairs of one car.
fn ring(n: usize) -> Vec<String> {
    let mut out = lines(&["def=0"]);
    for _ in 0..n {
        out.extend(lines(&["pair=", "num=1"]));
    }
    out.push("ref=0".into());
    out
}

fn equality() {
    println!("\n{:<34} {:>6} {:>10} {:>10} {:>10} {:>9}", "equal, microseconds", "slots", "whole", "less check", "the Rust", "to before");
    for name in ["two lists", "two wide vectors of strings", "many slots of two blocks", "sharing at each step, twice", "rings of unlike periods"] {
        let mut before = 0.0;
        for slots in [256, 512, 1024, 2048, 4096] {
            let mut data: Vec<Vec<String>> = Vec::new();
            match name {
                "two lists" => data.extend(vec![list(slots / 4 - 1); 2]),
                "two wide vectors of strings" => {
                    let mut one = vec![format!("vec={}", slots / 4)];
                    one.extend(vec!["str=6162".to_string(); slots / 4]);
                    data.extend(vec![one; 2]);
                }
                "many slots of two blocks" => {
                    // a vector of 64 times one text of 1,024 bytes, which an eighth of the slots show; and a vector for those slots
                    let copies = slots / 8;
                    let mut block: Vec<String> = (1..copies).map(|k| format!("def={}", k % 63)).collect();
                    block.extend(["vec=64".into(), "def=63".into(), format!("str={}", "61".repeat(1024))]);
                    block.extend(vec!["ref=63".to_string(); 63]);
                    let mut holder = vec![format!("vec={copies}")];
                    holder.extend(vec!["nil=".to_string(); copies]);
                    data.extend([holder.clone(), holder, block.clone(), block]);
                }
                "rings of unlike periods" => data.extend([ring(slots / 4 - 1), ring(slots / 4 - 2)]),
                _ => data.extend(vec![list(slots / 4 - 1); 2]),
            }
            let (mut port, mut rust, roots) = both(slots, slots, &data);
            if name.starts_with("sharing") {
                // each pair of the list names the next one twice
                for root in &roots {
                    let mut at = *root as usize;
                    while let VCell::Pair(_, next) = *rust.cell(at) {
                        port.pair_store(at as u64, next as u64, next as u64);
                        rust.cell_store(at, VCell::Pair(next, next));
                        at = next;
                    }
                }
            }
            if name.starts_with("many") {
                for k in 0..2 {
                    for (index, slot) in port.sharing(roots[2 + k]).into_iter().enumerate() {
                        port.slot_store(roots[k], index as u64, slot);
                        rust.element_store(roots[k] as usize, index, VCell::Ptr(slot as usize));
                    }
                }
            }
            let answer = port.equal(roots[0], roots[1]);
            let ours = least(30, || port.clone(), |p| p.equal(roots[0], roots[1]));
            let check = least(30, || port.clone(), |p| p.used());
            let (left, right) = (VCell::Ptr(roots[0] as usize), VCell::Ptr(roots[1] as usize));
            let theirs = match rust.equal(&left, &right) {
                Ok(theirs) => {
                    assert_eq!(theirs, answer, "{name}");
                    format!("{:.1}", least(15, || (), |_| rust.equal(&left, &right)))
                }
                Err(stop) => format!("{stop:?}").to_lowercase(),
            };
            let less = ours - check;
            println!("{name:<34} {slots:>6} {ours:>10.1} {less:>10.1} {theirs:>10} {:>9}", if before > 0.0 { format!("{:.2}", less / before) } else { String::new() });
            before = less;
        }
    }
}

fn main() {
    with_stack(|| {
        collections();
        readings();
        equality();
    });
}
