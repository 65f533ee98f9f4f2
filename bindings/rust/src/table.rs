use crate::{sys, Refusal};

const BYTES: usize = 9214;
const LONGEST: usize = 32;

/// What a value's number stands for.
#[derive(Debug, Clone, PartialEq, Eq)]
pub enum Value {
    Bool(bool),
    Int(i64),
    /// At most 32 bytes.
    String(String),
}

/// Names and values by number, in the order of first asking.
///
/// ```
/// use indovalump::{Attrs, Sheet, Table, Value};
/// let mut table = Table::new();
/// let bold = table.name("bold")?;
/// let yes = table.value(&Value::Bool(true))?;
/// assert_eq!((bold, yes), (0, 1));
/// assert_eq!(table.value(&Value::Int(1))?, 2);
/// assert_eq!(table.name("bold")?, 0);
/// assert_eq!(table.name_of(0).as_deref(), Some("bold"));
/// assert_eq!(table.value_of(2), Some(Value::Int(1)));
/// assert_eq!(table.value_of(3), None);
/// let mut sheet = Sheet::new();
/// sheet.insert_with_attributes(0, "hot", &Attrs::new().with(bold, yes)?)?;
/// # Ok::<(), indovalump::Refusal>(())
/// ```
#[derive(Clone, PartialEq, Eq)]
pub struct Table {
    head: [u32; 2],
    bytes: Vec<u8>,
}

impl Default for Table {
    fn default() -> Self {
        Self::new()
    }
}

impl Table {
    /// A table with no entry.
    pub fn new() -> Self {
        let mut head = [0; 2];
        // SAFETY: the head's two numbers are lent.
        unsafe { sys::indovalump_table_fresh(&mut head) };
        Table { head, bytes: vec![0; BYTES] }
    }

    /// A table from a head and bytes that came from anywhere. What is not sound is refused with 9 and shows nothing.
    pub fn from_parts(head: [u32; 2], bytes: Vec<u8>) -> Self {
        Table { head, bytes }
    }

    /// The head's numbers and the bytes.
    pub fn parts(&self) -> (&[u32; 2], &[u8]) {
        (&self.head, &self.bytes)
    }

    /// Whether the bytes hold a sound table.
    pub fn is_sound(&self) -> bool {
        // SAFETY: every pointer is lent with its own length, here and below.
        unsafe { sys::indovalump_table_sound(&self.head, self.bytes.as_ptr(), self.bytes.len()) }
    }

    /// The number of a name, known or new.
    pub fn name(&mut self, name: &str) -> Result<u32, Refusal> {
        let mut number = 0;
        Refusal::check(unsafe {
            sys::indovalump_ask_name(&mut self.head, self.bytes.as_mut_ptr(), self.bytes.len(), name.as_ptr(), name.len(), &mut number)
        })?;
        Ok(number)
    }

    /// The number of a value, known or new.
    pub fn value(&mut self, value: &Value) -> Result<u32, Refusal> {
        let mut number = 0;
        let (head, bytes, len) = (&mut self.head, self.bytes.as_mut_ptr(), self.bytes.len());
        Refusal::check(unsafe {
            match value {
                Value::Bool(b) => sys::indovalump_ask_bool(head, bytes, len, *b, &mut number),
                Value::Int(n) => sys::indovalump_ask_int(head, bytes, len, *n, &mut number),
                Value::String(s) => sys::indovalump_ask_string(head, bytes, len, s.as_ptr(), s.len(), &mut number),
            }
        })?;
        Ok(number)
    }

    /// The name of a number, if it was given out.
    pub fn name_of(&self, n: u32) -> Option<String> {
        let mut out = [0; LONGEST];
        let mut count = 0;
        unsafe { sys::indovalump_name(&self.head, self.bytes.as_ptr(), self.bytes.len(), n, out.as_mut_ptr(), out.len(), &mut count) };
        // No name is empty.
        (count > 0).then(|| String::from_utf8_lossy(&out[..count]).into_owned())
    }

    /// The value of a number, if it was given out.
    pub fn value_of(&self, v: u32) -> Option<Value> {
        let mut number = 0;
        let kind = unsafe { sys::indovalump_value(&self.head, self.bytes.as_ptr(), self.bytes.len(), v, &mut number) };
        match kind {
            1 => Some(Value::Bool(number != 0)),
            2 => Some(Value::Int(number)),
            3 => {
                let mut out = [0; LONGEST];
                let mut count = 0;
                unsafe {
                    sys::indovalump_string(&self.head, self.bytes.as_ptr(), self.bytes.len(), v, out.as_mut_ptr(), out.len(), &mut count)
                };
                Some(Value::String(String::from_utf8_lossy(&out[..count]).into_owned()))
            }
            _ => None,
        }
    }
}
