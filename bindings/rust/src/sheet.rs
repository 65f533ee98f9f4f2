use crate::{sys, Attrs, Content, Op, Refusal};
use std::fmt;

/// How many items a sheet has room for.
pub const ITEMS: usize = 2048;
/// How many UTF-16 units of text a sheet has room for, deleted ones counted.
pub const UNITS: usize = 16384;

// A delta's scratch is measured and never written.
static SCRATCH_ITEMS: [u64; ITEMS] = [0; ITEMS];
static SCRATCH_UNITS: [u16; UNITS] = [0; UNITS];

// A call lent the sheet's parts, each pointer with its own length: what the archive asks for.
macro_rules! changing {
    ($sheet:ident.$call:ident($($arg:expr),*)) => {
        // SAFETY: the pointers and lengths are those of the sheet's own buffers, which nothing else holds.
        Refusal::check(unsafe {
            sys::$call(&mut $sheet.head, $sheet.items.as_mut_ptr(), $sheet.items.len(), $sheet.units.as_mut_ptr(), $sheet.units.len() $(, $arg)*)
        })
    };
}

macro_rules! reading {
    ($sheet:ident.$call:ident($($arg:expr),*)) => {
        // SAFETY: as above, lent to be read.
        Refusal::check(unsafe {
            sys::$call(&$sheet.head, $sheet.items.as_ptr(), $sheet.items.len(), $sheet.units.as_ptr(), $sheet.units.len() $(, $arg)*)
        })
    };
}

/// A part of what is seen, and what is in force on it.
#[derive(Debug, Clone, PartialEq, Eq)]
pub struct Run {
    pub insert: Content,
    pub attributes: Attrs,
}

/// A sheet and the buffers that it lies in. Indices and lengths count UTF-16 units, an embed being one.
///
/// ```
/// use indovalump::{Attrs, Sheet};
/// let mut sheet = Sheet::new();
/// sheet.insert(0, "tin 12 percent")?;
/// sheet.format(7, 7, &Attrs::new().with(0, 1)?)?;
/// sheet.insert(0, "Métal: ")?;
/// assert_eq!(sheet.to_string(), "Métal: tin 12 [percent]{0=1}");
/// assert_eq!(sheet.len()?, 21);
/// assert_eq!(sheet.remove_range(20, 5).unwrap_err().number(), 1);
/// # Ok::<(), indovalump::Refusal>(())
/// ```
#[derive(Clone, PartialEq, Eq)]
pub struct Sheet {
    head: [u32; 3],
    items: Vec<u64>,
    units: Vec<u16>,
}

impl Default for Sheet {
    fn default() -> Self {
        Self::new()
    }
}

impl Sheet {
    /// A sheet that holds nothing.
    pub fn new() -> Self {
        let mut head = [0; 3];
        // SAFETY: the head's three numbers are lent.
        unsafe { sys::indovalump_fresh(&mut head) };
        Sheet { head, items: vec![0; ITEMS], units: vec![0; UNITS] }
    }

    /// A sheet from a head and buffers that came from anywhere. What is not sound is refused by every call with 9.
    ///
    /// ```
    /// let sheet = indovalump::Sheet::from_parts([0, 1, 3], vec![0; 2048], vec![0; 16384]);
    /// assert!(!sheet.is_sound());
    /// assert_eq!(sheet.len().unwrap_err(), indovalump::Refusal::Broken);
    /// ```
    pub fn from_parts(head: [u32; 3], items: Vec<u64>, units: Vec<u16>) -> Self {
        Sheet { head, items, units }
    }

    /// The head's numbers and both buffers.
    pub fn parts(&self) -> (&[u32; 3], &[u64], &[u16]) {
        (&self.head, &self.items, &self.units)
    }

    /// Whether the buffers hold a sound sheet.
    pub fn is_sound(&self) -> bool {
        // SAFETY: every pointer is lent with its own length.
        unsafe { sys::indovalump_sound(&self.head, self.items.as_ptr(), self.items.len(), self.units.as_ptr(), self.units.len()) }
    }

    /// A transaction begins: `event` tells what came after it.
    pub fn begin(&mut self) -> Result<(), Refusal> {
        changing!(self.indovalump_begin())
    }

    /// Plain text: it takes the attributes of the unit before it.
    pub fn insert(&mut self, index: u32, text: &str) -> Result<(), Refusal> {
        let text: Vec<u16> = text.encode_utf16().collect();
        self.insert_units(index, &text)
    }

    /// The same in UTF-16 units.
    pub fn insert_units(&mut self, index: u32, text: &[u16]) -> Result<(), Refusal> {
        changing!(self.indovalump_insert(index, text.as_ptr(), text.len()))
    }

    /// Text that has exactly these attributes.
    ///
    /// ```
    /// # use indovalump::{Attrs, Sheet};
    /// let mut sheet = Sheet::new();
    /// sheet.insert(0, "ab")?;
    /// sheet.insert_with_attributes(1, "X", &Attrs::new().with(3, 7)?)?;
    /// assert_eq!(sheet.to_string(), "a[X]{3=7}b");
    /// # Ok::<(), indovalump::Refusal>(())
    /// ```
    pub fn insert_with_attributes(&mut self, index: u32, text: &str, attrs: &Attrs) -> Result<(), Refusal> {
        let text: Vec<u16> = text.encode_utf16().collect();
        self.insert_units_with_attributes(index, &text, attrs)
    }

    /// The same in UTF-16 units.
    pub fn insert_units_with_attributes(&mut self, index: u32, text: &[u16], attrs: &Attrs) -> Result<(), Refusal> {
        changing!(self.indovalump_insert_with_attributes(index, text.as_ptr(), text.len(), attrs.mask, &attrs.values))
    }

    /// A plain embed, by its number.
    pub fn insert_embed(&mut self, index: u32, number: u32) -> Result<(), Refusal> {
        changing!(self.indovalump_insert_embed(index, number))
    }

    /// An embed that has exactly these attributes.
    pub fn insert_embed_with_attributes(&mut self, index: u32, number: u32, attrs: &Attrs) -> Result<(), Refusal> {
        changing!(self.indovalump_insert_embed_with_attributes(index, number, attrs.mask, &attrs.values))
    }

    /// Attributes for a range; null takes a key away. A length past the end formats to the end.
    pub fn format(&mut self, index: u32, len: u32, attrs: &Attrs) -> Result<(), Refusal> {
        changing!(self.indovalump_format(index, len, attrs.mask, &attrs.values))
    }

    /// All of a range goes, or nothing.
    pub fn remove_range(&mut self, index: u32, len: u32) -> Result<(), Refusal> {
        changing!(self.indovalump_remove_range(index, len))
    }

    /// A delta as a whole, or nothing of it.
    ///
    /// ```
    /// # use indovalump::{Attrs, Op, Sheet};
    /// let mut sheet = Sheet::new();
    /// sheet.insert(0, "abcd")?;
    /// sheet.apply_delta(&[Op::Retain(1, Attrs::new()), Op::Deleted(2), Op::text("X", Attrs::new().with(0, 1)?)])?;
    /// assert_eq!(sheet.to_string(), "a[X]{0=1}d");
    /// # Ok::<(), indovalump::Refusal>(())
    /// ```
    pub fn apply_delta(&mut self, delta: &[Op]) -> Result<(), Refusal> {
        let mut text = Vec::new();
        let mut words = Vec::with_capacity(delta.len() * 8);
        for op in delta {
            words.extend(op.to_words(&mut text));
        }
        self.apply_words(&words, &text)
    }

    /// The same in operation numbers, eight to each, and the units that their texts are parts of.
    pub fn apply_words(&mut self, ops: &[u32], text: &[u16]) -> Result<(), Refusal> {
        changing!(self.indovalump_apply_delta(
            ops.as_ptr(),
            ops.len(),
            text.as_ptr(),
            text.len(),
            SCRATCH_ITEMS.as_ptr(),
            ITEMS,
            SCRATCH_UNITS.as_ptr(),
            UNITS
        ))
    }

    /// How many units and embeds are seen.
    pub fn len(&self) -> Result<u32, Refusal> {
        let mut len = 0;
        reading!(self.indovalump_len(&mut len))?;
        Ok(len)
    }

    /// Whether nothing is seen.
    pub fn is_empty(&self) -> Result<bool, Refusal> {
        Ok(self.len()? == 0)
    }

    /// The units seen in a range, an embed as 0.
    pub fn units_of(&self, index: u32, len: u32) -> Result<Vec<u16>, Refusal> {
        // What is seen is units in use and embeds.
        let most = self.head[1].min(ITEMS as u32) + self.head[2].min(UNITS as u32);
        let mut out = vec![0; len.min(most) as usize];
        let mut count = 0;
        reading!(self.indovalump_text(index, len, out.as_mut_ptr(), out.len(), &mut count))?;
        out.truncate(count);
        Ok(out)
    }

    /// The operation numbers of all runs.
    pub fn run_words(&self, joined: bool) -> Result<Vec<u32>, Refusal> {
        let mut ops = vec![0; self.head[1].min(ITEMS as u32) as usize * 8];
        let mut count = 0;
        reading!(self.indovalump_runs(joined, ops.as_mut_ptr(), ops.len(), &mut count))?;
        ops.truncate(count * 8);
        Ok(ops)
    }

    fn runs(&self, joined: bool) -> Result<Vec<Run>, Refusal> {
        let words = self.run_words(joined)?;
        let text = self.units_of(0, u32::MAX)?;
        let mut runs = Vec::with_capacity(words.len() / 8);
        for w in words.chunks_exact(8) {
            if let Some(Op::Inserted(insert, attributes)) = Op::from_words(w, &text) {
                runs.push(Run { insert, attributes });
            }
        }
        Ok(runs)
    }

    /// The runs: every mark and every embed ends a text.
    pub fn diff(&self) -> Result<Vec<Run>, Refusal> {
        self.runs(false)
    }

    /// The runs, neighbouring texts with the same attributes joined.
    pub fn joined(&self) -> Result<Vec<Run>, Refusal> {
        self.runs(true)
    }

    /// Run `n` from 0, or none at or past their count.
    pub fn run_at(&self, joined: bool, n: u32) -> Result<Option<Run>, Refusal> {
        let mut w = [0; 8];
        reading!(self.indovalump_run_at(joined, n, &mut w))?;
        if w[0] != 1 {
            return Ok((w[0] == 2).then(|| Run { insert: Content::Embed(w[1]), attributes: Attrs::from_words(w[3], &w[4..]) }));
        }
        let text = String::from_utf16_lossy(&self.units_of(w[1], w[2])?);
        Ok(Some(Run { insert: Content::Text(text), attributes: Attrs::from_words(w[3], &w[4..]) }))
    }

    /// How many runs there are.
    pub fn count_runs(&self, joined: bool) -> Result<usize, Refusal> {
        let mut count = 0;
        reading!(self.indovalump_count_runs(joined, &mut count))?;
        Ok(count)
    }

    /// What the running transaction changed, as a delta over what stood at `begin`.
    ///
    /// ```
    /// # use indovalump::{Attrs, Op, Sheet};
    /// let mut sheet = Sheet::new();
    /// sheet.insert(0, "abc")?;
    /// sheet.begin()?;
    /// let bold = Attrs::new().with(0, 1)?;
    /// sheet.format(1, 1, &bold)?;
    /// assert_eq!(sheet.event()?, [Op::Retain(1, Attrs::new()), Op::Retain(1, bold)]);
    /// # Ok::<(), indovalump::Refusal>(())
    /// ```
    pub fn event(&self) -> Result<Vec<Op>, Refusal> {
        // No event has more operations than there are items, nor more units than are used.
        let mut ops = vec![0; self.head[1].min(ITEMS as u32) as usize * 8];
        let mut texts = vec![0; self.head[2].min(UNITS as u32) as usize];
        let mut counts = [0; 2];
        reading!(self.indovalump_event(ops.as_mut_ptr(), ops.len(), texts.as_mut_ptr(), texts.len(), &mut counts))?;
        Ok(ops.chunks_exact(8).take(counts[0] as usize).filter_map(|w| Op::from_words(w, &texts)).collect())
    }
}

/// The joined runs: plain text as it is, `[text]{key=value}` where something is in force, `<number>` for an embed.
impl fmt::Display for Sheet {
    fn fmt(&self, f: &mut fmt::Formatter<'_>) -> fmt::Result {
        let runs = match self.joined() {
            Ok(runs) => runs,
            Err(refusal) => return write!(f, "({refusal})"),
        };
        for run in runs {
            match (&run.insert, run.attributes.is_empty()) {
                (Content::Text(text), true) => f.write_str(text)?,
                (Content::Text(text), false) => write!(f, "[{text}]{}", run.attributes)?,
                (Content::Embed(n), true) => write!(f, "<{n}>")?,
                (Content::Embed(n), false) => write!(f, "<{n}>{}", run.attributes)?,
            }
        }
        Ok(())
    }
}

impl fmt::Debug for Sheet {
    fn fmt(&self, f: &mut fmt::Formatter<'_>) -> fmt::Result {
        write!(f, "Sheet({self})")
    }
}
