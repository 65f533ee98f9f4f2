//! Our answers and the crate's in one form.
use indovalump::{Attrs, Content, Op, Run};
use yrs_text::{Any, Delta, Doc, Out};

/// xorshift.
pub struct Dice(pub u64);

impl Dice {
    pub fn roll(&mut self, n: u64) -> u64 {
        self.0 ^= self.0 << 13;
        self.0 ^= self.0 >> 7;
        self.0 ^= self.0 << 17;
        (self.0 >> 11) % n
    }
}

pub fn our_set(pairs: &[(u32, u32)]) -> Attrs {
    pairs.iter().fold(Attrs::new(), |set, &(k, v)| set.with(k, v).unwrap())
}

fn set_back(a: &Option<Box<yrs_text::Attrs>>) -> Attrs {
    let mut set = Attrs::new();
    if let Some(a) = a {
        for (k, v) in a.iter() {
            let value = match v {
                Any::Null => 0,
                Any::BigInt(n) => *n as u32,
                Any::String(_) => unreachable!("no value is a string"),
            };
            set = set.with(k[1..].parse().unwrap(), value).unwrap();
        }
    }
    set
}

fn content_back(v: &Out) -> Content {
    match v {
        Out::Any(Any::String(s)) => Content::Text(s.to_string()),
        Out::Any(Any::BigInt(n)) => Content::Embed(*n as u32),
        _ => unreachable!("nothing else was put in"),
    }
}

/// The crate's runs.
pub fn runs_back(doc: &Doc) -> Vec<Run> {
    doc.diff().iter().map(|d| Run { insert: content_back(&d.insert), attributes: set_back(&d.attributes) }).collect()
}

/// Neighbouring texts with the same attributes joined.
pub fn join(runs: &[Run]) -> Vec<Run> {
    let mut out: Vec<Run> = Vec::new();
    for run in runs {
        if let (Some(Run { insert: Content::Text(last), attributes }), Content::Text(more)) = (out.last_mut(), &run.insert) {
            if *attributes == run.attributes {
                last.push_str(more);
                continue;
            }
        }
        out.push(run.clone());
    }
    out
}

/// The crate's event.
pub fn event_back(doc: &Doc) -> Vec<Op> {
    doc.event()
        .iter()
        .map(|op| match op {
            Delta::Inserted(v, a) => Op::Inserted(content_back(v), set_back(a)),
            Delta::Retain(n, a) => Op::Retain(*n, set_back(a)),
            Delta::Deleted(n) => Op::Deleted(*n),
        })
        .collect()
}

/// The same delta for the crate.
pub fn their_delta(ops: &[Op]) -> Vec<Delta<Any>> {
    let boxed = |a: &Attrs| {
        let pairs: Vec<(u32, u32)> = a.iter().collect();
        (!pairs.is_empty()).then(|| Box::new(yrs_text::attrs_of(&pairs)))
    };
    ops.iter()
        .map(|op| match op {
            Op::Inserted(Content::Text(t), a) => Delta::Inserted(Any::from(t.as_str()), boxed(a)),
            Op::Inserted(Content::Embed(n), a) => Delta::Inserted(Any::BigInt(*n as i64), boxed(a)),
            Op::Retain(n, a) => Delta::Retain(*n, boxed(a)),
            Op::Deleted(n) => Delta::Deleted(*n),
        })
        .collect()
}
