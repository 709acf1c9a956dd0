//! The program: see the README.
use oracle::random::{Rng, history, sheet};
use oracle::text;
use oracle::vm::gc::{Map, State};
use std::io::{BufWriter, Read, Write};

const USE: &str =
    "oracle sheet | sheets | commands | random SEED COUNT sheets|commands | map STATES";

fn input() -> String {
    let mut text = String::new();
    std::io::stdin()
        .read_to_string(&mut text)
        .expect("standard input");
    text
}

fn run(words: &[&str], out: &mut impl Write) -> std::io::Result<()> {
    match words {
        ["sheet"] => write!(out, "{}", text::run_sheet(&text::sheet(&input())))?,
        // Many sheets, each but the first after a line `---`.
        ["sheets"] => {
            let all = input();
            for (index, one) in all.split("---\n").enumerate() {
                if index > 0 {
                    writeln!(out, "---")?;
                }
                write!(out, "{}", text::run_sheet(&text::sheet(one)))?;
            }
        }
        ["commands"] => text::run_commands(&input(), |it| writeln!(out, "{}", it).unwrap()),
        ["random", seed, count, mode] => {
            let seed: u64 = seed.parse().expect(USE);
            let count: u64 = count.parse().expect(USE);
            let mut seeds = Rng::new(seed);
            for index in 0..count {
                // Each has a seed of its own, so that a longer run begins like a shorter one.
                let rng = &mut Rng::new(seeds.draw());
                if index > 0 {
                    writeln!(out, "---")?;
                }
                match *mode {
                    "sheets" => write!(out, "{}", text::sheet_text(&sheet(rng)))?,
                    "commands" => write!(out, "{}", history(rng))?,
                    _ => panic!("{}", USE),
                }
            }
        }
        // A state map of the given states, one digit each, as bytes.
        ["map", states] => {
            let mut map = Map::new(states.len());
            for (index, digit) in states.bytes().enumerate() {
                map.set(index, State::from(digit - b'0'));
            }
            let bytes: Vec<String> = map.bytes().iter().map(|it| it.to_string()).collect();
            writeln!(out, "bytes={}", bytes.join(","))?;
        }
        _ => panic!("{}", USE),
    }
    out.flush()
}

fn main() {
    let words: Vec<String> = std::env::args().skip(1).collect();
    let words: Vec<&str> = words.iter().map(|it| it.as_str()).collect();
    oracle::history::with_stack(|| {
        run(&words, &mut BufWriter::new(std::io::stdout().lock())).expect("standard output")
    });
}
