//! Our calls against the crate's own functions: the same calls on the same sheets, in one run. `bench` prints the table;
//! `bench ours` and `bench theirs` only carry out the fixed script, for counting instructions.
use bench::{our_set, their_delta};
use indovalump::{Op, Sheet};
use std::hint::black_box;
use std::time::Instant;
use yrs_text::{attrs_of, Doc};

const ROUNDS: usize = 101;

/// The calls that make a sheet of about `items` items: words at the end, every third one formatted, some taken out again.
fn made(items: usize) -> (Sheet, Doc, u32) {
    let (mut ours, mut theirs) = (Sheet::new(), Doc::new());
    let mut len = 0u32;
    let mut step = 0;
    while (ours.parts().0[1] as usize) + 6 < items {
        ours.insert(len, "metal ").unwrap();
        theirs.insert(len, "metal ");
        len += 6;
        if step % 3 == 0 {
            let set = [(step % 2, 1 + step % 5)];
            ours.format(len - 5, 3, &our_set(&set)).unwrap();
            theirs.format(len - 5, 3, attrs_of(&set));
        }
        if step % 7 == 6 {
            ours.remove_range(len - 8, 2).unwrap();
            theirs.remove(len - 8, 2);
            len -= 2;
        }
        step += 1;
    }
    ours.begin().unwrap();
    theirs.begin();
    (ours, theirs, len)
}

/// Microseconds a call in the fastest round, since other work on the machine only adds; making the sheet is not timed.
fn fastest(times: &[f64]) -> f64 {
    times.iter().copied().fold(f64::MAX, f64::min)
}

type Ours = fn(&mut Sheet, u32, u32);
type Theirs = fn(&mut Doc, u32, u32);

fn delta(len: u32, i: u32) -> Vec<Op> {
    vec![Op::Retain(len / 2 + i, our_set(&[])), Op::text("x", our_set(&[(0, 1)])), Op::Retain(2, our_set(&[])), Op::Deleted(1)]
}

const KINDS: [(&str, u32, Ours, Theirs); 8] = [
    ("typing at the end", 16, |s, len, i| s.insert(len + i, "x").unwrap(), |d, len, i| d.insert(len + i, "x")),
    ("typing in the middle", 16, |s, len, i| s.insert(len / 2 + i, "x").unwrap(), |d, len, i| d.insert(len / 2 + i, "x")),
    (
        "formatting",
        8,
        |s, len, i| s.format(len / 2 + 2 * i, 5, &our_set(&[(0, 1 + i % 3)])).unwrap(),
        |d, len, i| d.format(len / 2 + 2 * i, 5, attrs_of(&[(0, 1 + i % 3)])),
    ),
    ("removing", 16, |s, len, _| s.remove_range(len / 2, 1).unwrap(), |d, len, _| d.remove(len / 2, 1)),
    ("a delta of 4", 8, |s, len, i| s.apply_delta(&delta(len, i)).unwrap(), |d, len, i| d.apply(their_delta(&delta(len, i)))),
    (
        "length",
        16,
        |s, _, _| {
            black_box(s.len().unwrap());
        },
        |d, _, _| {
            black_box(d.len());
        },
    ),
    (
        "runs",
        4,
        |s, _, _| {
            black_box(s.diff().unwrap());
        },
        |d, _, _| {
            black_box(d.diff());
        },
    ),
    (
        "event",
        4,
        |s, _, _| {
            black_box(s.event().unwrap());
        },
        |d, _, _| {
            black_box(d.event());
        },
    ),
];

fn table() {
    println!("| call | items | ours, µs | the crate's, µs | ours / theirs |");
    println!("|---|---:|---:|---:|---:|");
    for (name, calls, ours, theirs) in KINDS {
        for items in [100, 700, 2000] {
            let (mut a, mut b) = (Vec::new(), Vec::new());
            for _ in 0..ROUNDS {
                let (mut sheet, mut doc, len) = made(items);
                if name == "event" {
                    // Something to tell.
                    for i in 0..8 {
                        KINDS[1].2(&mut sheet, len, i);
                        KINDS[1].3(&mut doc, len, i);
                    }
                }
                let t = Instant::now();
                for i in 0..calls {
                    ours(&mut sheet, len, i);
                }
                a.push(t.elapsed().as_secs_f64() * 1e6 / calls as f64);
                let t = Instant::now();
                for i in 0..calls {
                    theirs(&mut doc, len, i);
                }
                b.push(t.elapsed().as_secs_f64() * 1e6 / calls as f64);
            }
            let (a, b) = (fastest(&a), fastest(&b));
            println!("| {name} | {items} | {a:.2} | {b:.2} | {:.1} |", a / b);
        }
    }
}

// The fixed script: every kind of call on a sheet of 700 items.
#[no_mangle]
#[inline(never)]
pub fn fixed_ours(sheet: &mut Sheet, len: u32) {
    for (_, calls, ours, _) in KINDS {
        for i in 0..calls {
            ours(sheet, len, i);
        }
    }
}

#[no_mangle]
#[inline(never)]
pub fn fixed_theirs(doc: &mut Doc, len: u32) {
    for (_, calls, _, theirs) in KINDS {
        for i in 0..calls {
            theirs(doc, len, i);
        }
    }
}

fn main() {
    match std::env::args().nth(1).as_deref() {
        None => table(),
        Some(which) => {
            let (mut sheet, mut doc, len) = made(700);
            match which {
                "ours" => fixed_ours(&mut sheet, len),
                _ => fixed_theirs(&mut doc, len),
            }
        }
    }
}
