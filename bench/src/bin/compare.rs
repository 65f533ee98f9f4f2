//! Random scripts through the archive's calls and through the crate's own functions: the length, the joined runs, the runs and the
//! event have to be the same after every call. `compare [SEED [SCRIPTS]]`
//!
//! Only calls that are not refused, no removal of length 0, no empty insertion in a delta, and nothing behind a Deleted, but on
//! sheets without attributes.
use bench::{event_back, join, our_set, runs_back, their_delta, Dice};
use indovalump::{Content, Op, Sheet};
use yrs_text::{attrs_of, Doc};

const TEXTS: [&str; 6] = ["a", "bc", "d\u{1F600}e", "é", "xyz", "\u{10FFFF}"];

struct Pair {
    ours: Sheet,
    theirs: Doc,
    keys: u64,
    script: Vec<String>,
}

/// A place that is not inside a pair of the visible units.
fn place(d: &mut Dice, seen: &[u16], from: usize) -> usize {
    let mut i = from + d.roll((seen.len() - from) as u64 + 1) as usize;
    if i < seen.len() && (0xDC00..0xE000).contains(&seen[i]) {
        i -= 1;
    }
    i.max(from)
}

impl Pair {
    fn set(&self, d: &mut Dice) -> Vec<(u32, u32)> {
        if self.keys == 0 {
            return Vec::new();
        }
        let mut pairs: Vec<(u32, u32)> = (0..d.roll(3)).map(|_| (d.roll(self.keys) as u32, d.roll(4) as u32)).collect();
        pairs.sort();
        pairs.dedup_by_key(|p| p.0);
        pairs
    }

    fn call(&mut self, d: &mut Dice) {
        let seen = self.ours.units_of(0, u32::MAX).unwrap();
        let i = place(d, &seen, 0);
        let e = place(d, &seen, i);
        let (index, len) = (i as u32, (e - i) as u32);
        let text = TEXTS[d.roll(6) as usize];
        let set = self.set(d);
        let (a, b) = (our_set(&set), attrs_of(&set));
        // Now and then past the end of what is seen.
        let past = if d.roll(12) == 0 { seen.len() as u32 + 5 } else { 0 };
        self.script.push(format!("index {index} len {len} past {past} text {text:?} set {set:?}"));
        let done = match d.roll(12) {
            0..=2 => {
                self.theirs.insert(index + past, text);
                self.ours.insert(index + past, text)
            }
            3 | 4 => {
                self.theirs.insert_with(index, text, b);
                self.ours.insert_with_attributes(index, text, &a)
            }
            5 => {
                self.theirs.embed(index, 77);
                self.ours.insert_embed(index, 77)
            }
            6 => {
                self.theirs.embed_with(index, 78, b);
                self.ours.insert_embed_with_attributes(index, 78, &a)
            }
            7 | 8 => {
                self.theirs.format(index, len + past, b);
                self.ours.format(index, len + past, &a)
            }
            9 if len > 0 => {
                self.theirs.remove(index, len);
                self.ours.remove_range(index, len)
            }
            10 => {
                let mut ops = vec![Op::Retain(index, a), Op::text(text, our_set(&self.set(d)))];
                if self.keys > 0 {
                    ops.push(Op::Retain(len, our_set(&self.set(d))));
                } else if len > 0 {
                    ops.push(Op::Deleted(len));
                }
                ops.push(Op::Inserted(Content::Embed(79), our_set(&self.set(d))));
                let last = (place(d, &seen, e) - e) as u32;
                if last > 0 {
                    ops.push(Op::Deleted(last));
                }
                self.theirs.apply(their_delta(&ops));
                self.ours.apply_delta(&ops)
            }
            _ => {
                self.theirs.begin();
                self.ours.begin()
            }
        };
        if let Err(r) = done {
            panic!("{r}: {:?}", self.script.last());
        }
    }

    fn same(&self) {
        let runs = runs_back(&self.theirs);
        let told = (self.ours.len().unwrap(), self.ours.joined().unwrap(), self.ours.diff().unwrap(), self.ours.event().unwrap());
        let theirs = (self.theirs.len(), join(&runs), runs, event_back(&self.theirs));
        assert_eq!(told, theirs, "after {:#?}", self.script);
    }
}

fn main() {
    let mut args = std::env::args().skip(1).map(|a| a.parse::<u64>().expect("a number"));
    let seed = args.next().unwrap_or(20_281_116);
    let scripts = args.next().unwrap_or(400);
    let mut calls = 0;
    for s in 0..scripts {
        let mut d = Dice(seed.wrapping_mul(0x9E37_79B9_7F4A_7C15).wrapping_add(s) | 1);
        d.roll(2);
        let keys = [0, 1, 1, 3, 16][d.roll(5) as usize];
        let mut p = Pair { ours: Sheet::new(), theirs: Doc::new(), keys, script: Vec::new() };
        for _ in 0..10 + d.roll(60) {
            p.call(&mut d);
            p.same();
            calls += 1;
        }
    }
    println!("seed {seed}: {scripts} scripts, {calls} calls, no difference");
}
