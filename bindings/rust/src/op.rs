use crate::Attrs;

/// What a run or an operation puts in.
#[derive(Debug, Clone, PartialEq, Eq)]
pub enum Content {
    /// Text.
    Text(String),
    /// An embed, by its number.
    Embed(u32),
}

/// An operation of a delta, or of an event.
#[derive(Debug, Clone, PartialEq, Eq)]
pub enum Op {
    /// New text or an embed, with exactly these attributes.
    Inserted(Content, Attrs),
    /// So many units stay, and get these attributes; null takes a key away.
    Retain(u32, Attrs),
    /// So many units go.
    Deleted(u32),
}

impl Op {
    /// Text with attributes.
    pub fn text(text: &str, attrs: Attrs) -> Op {
        Op::Inserted(Content::Text(text.to_owned()), attrs)
    }

    /// The operation of eight numbers, whose text is a part of `units`.
    pub(crate) fn from_words(w: &[u32], units: &[u16]) -> Option<Op> {
        let attrs = Attrs::from_words(w[3], &w[4..8]);
        Some(match w[0] {
            1 => {
                let from = w[1] as usize;
                let part = units.get(from..from + w[2] as usize)?;
                Op::Inserted(Content::Text(String::from_utf16_lossy(part)), attrs)
            }
            2 => Op::Inserted(Content::Embed(w[1]), attrs),
            3 => Op::Deleted(w[1]),
            4 => Op::Retain(w[1], attrs),
            _ => return None,
        })
    }

    /// Its eight numbers; its text goes behind `units`.
    pub(crate) fn to_words(&self, units: &mut Vec<u16>) -> [u32; 8] {
        let (kind, first, second, attrs) = match self {
            Op::Inserted(Content::Text(text), attrs) => {
                let start = units.len();
                units.extend(text.encode_utf16());
                (1, start as u32, (units.len() - start) as u32, *attrs)
            }
            Op::Inserted(Content::Embed(n), attrs) => (2, *n, 0, *attrs),
            Op::Deleted(n) => (3, *n, 0, Attrs::new()),
            Op::Retain(n, attrs) => (4, *n, 0, *attrs),
        };
        let [mask, a, b, c, d] = attrs.to_words();
        [kind, first, second, mask, a, b, c, d]
    }
}
