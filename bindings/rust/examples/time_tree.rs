//! Times a document of 262,129 nodes: how long it takes to make and to lay out, as values and by a writer.
//!
//! `cargo run --release --example time_tree`

use std::time::{Duration, Instant};
use yezhgulo::{Doc, Error, RenderOptions, Writer};

/// How many levels the tree has.
const DEPTH: u32 = 14;

/// How often each is timed. The shortest time is shown.
const RUNS: usize = 9;

/// An inner node: fifteen nodes, seven of which append.
fn value(depth: u32) -> Doc {
    if depth == 0 {
        return Doc::text("leaf");
    }
    let below = Doc::line_() + value(depth - 1) + "," + Doc::line() + value(depth - 1);
    (Doc::text("node(") + below.nest(2) + Doc::line_() + ")").group()
}

/// The same, written from left to right.
fn write(w: &mut Writer, depth: u32) {
    if depth == 0 {
        w.text("leaf");
        return;
    }
    w.group(|w| {
        w.text("node(").nest(2, |w| {
            w.line_();
            write(w, depth - 1);
            w.text(",").line();
            write(w, depth - 1);
        });
        w.line_().text(")");
    });
}

/// How long a call takes, and its result.
fn timed<T>(call: impl FnOnce() -> T) -> (Duration, T) {
    let start = Instant::now();
    let result = call();
    (start.elapsed(), result)
}

/// The shortest of several times.
fn shortest<T>(mut call: impl FnMut() -> T) -> Duration {
    (0..RUNS).map(|_| timed(&mut call).0).min().unwrap_or_default()
}

fn main() -> Result<(), Error> {
    let options = RenderOptions::new(80);
    let doc = value(DEPTH);
    let mut writer = Writer::new();
    write(&mut writer, DEPTH);
    let layout = doc.layout(&options)?;
    assert_eq!(layout, writer.layout(&options)?);
    println!(
        "programs of {} and {} bytes, layout of {} bytes",
        doc.program().len(),
        writer.program().len(),
        layout.len()
    );

    println!("values: making {:?}", shortest(|| value(DEPTH)));
    println!("values: layout {:?}", shortest(|| doc.layout(&options)));
    println!("values: a copy {:?}", shortest(|| doc.clone()));
    let rewrite = || {
        writer.clear();
        write(&mut writer, DEPTH);
    };
    println!("writer: making {:?}", shortest(rewrite));
    println!("writer: layout {:?}", shortest(|| writer.layout(&options)));
    Ok(())
}
