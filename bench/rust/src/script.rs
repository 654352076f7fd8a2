//! A plain program over the original that reads the scripts of the project's program and prints the same replies: `new`, `reg`, and
//! of one worker `pin`, `unpin`, `get`, `insert` and `round`.
use congee::epoch::{Guard, pin};
use congee::{Congee, DefaultAllocator};
use std::io::{BufRead, BufWriter, Write, stdin, stdout};

fn number(text: &str) -> usize {
    text.parse().expect("a number")
}

fn found(out: &mut impl Write, value: Option<usize>) -> std::io::Result<()> {
    match value {
        Some(value) => writeln!(out, "some {value}"),
        None => writeln!(out, "none"),
    }
}

pub fn answer() -> std::io::Result<()> {
    let tree: Congee<usize, usize> = Congee::new(DefaultAllocator {});
    let mut guard: Option<Guard> = None;
    let mut out = BufWriter::new(stdout().lock());
    for line in stdin().lock().lines() {
        let line = line?;
        let words: Vec<&str> = line.split(' ').collect();
        match words[..] {
            ["new", ..] => writeln!(out, "ok")?,
            ["reg"] => writeln!(out, "worker 0")?,
            [_, "pin"] => {
                guard = Some(tree.pin());
                writeln!(out, "ok")?;
            }
            [_, "unpin"] => {
                guard = None;
                writeln!(out, "ok")?;
            }
            [_, "round", times] => {
                for _ in 0..number(times) {
                    pin().flush();
                }
                writeln!(out, "ok")?;
            }
            [_, "get", key] => found(&mut out, tree.get(&number(key), guard.as_ref().unwrap()))?,
            [_, "insert", key, value] => {
                let before = tree.insert(number(key), number(value), guard.as_ref().unwrap()).unwrap();
                found(&mut out, before)?;
            }
            _ => panic!("{line}: no such command"),
        }
    }
    out.flush()
}
