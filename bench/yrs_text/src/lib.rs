//! The crate's own text functions, from `oracle/`, as a library: no script is read.
#![allow(dead_code, unused_imports, unused_variables, unused_mut)]

#[path = "../../../oracle/src/attrs.rs"]
pub mod attrs;
#[path = "../../../oracle/src/block.rs"]
pub mod block;
#[path = "../../../oracle/src/block_store.rs"]
pub mod block_store;
#[path = "../../../oracle/src/branch.rs"]
pub mod branch;
#[path = "../../../oracle/src/shim.rs"]
pub mod shim;
#[path = "../../../oracle/src/transaction.rs"]
pub mod transaction;
#[path = "../../../oracle/src/types/mod.rs"]
pub mod types;
#[path = "../../../oracle/src/utils.rs"]
pub mod utils;

// What `use crate::*` must bring into text.rs.
pub use block::ID;
pub use shim::*;
pub use transaction::{ReadTxn, TransactionMut};
pub use types::text::{Text, TextRef};
pub use types::{DeepObservable, GetString, Observable};

pub use types::text::YChange;
pub use types::{Attrs, Delta};

pub(crate) fn shim_check(good: bool, what: &str) {
    if !good {
        eprintln!("shim fault: {what}");
        std::process::exit(3);
    }
}

/// A key and a value as the oracle has them.
pub fn attrs_of(pairs: &[(u32, u32)]) -> Attrs {
    let mut all = Attrs::new();
    for &(k, v) in pairs {
        all.insert(format!("k{k}").into(), if v == 0 { Any::Null } else { Any::BigInt(v as i64) });
    }
    all
}

/// One text and its open transaction. The store is never given back.
pub struct Doc {
    store: *mut Store,
    pub text: TextRef,
    pub txn: TransactionMut<'static>,
}

impl Default for Doc {
    fn default() -> Self {
        Self::new()
    }
}

impl Doc {
    pub fn new() -> Self {
        let store = Box::into_raw(Box::new(Store::new()));
        let text = TextRef::from(unsafe { (*store).root });
        Doc { store, text, txn: TransactionMut::new(unsafe { &mut *store }) }
    }

    pub fn begin(&mut self) {
        let new = TransactionMut::new(unsafe { &mut *self.store });
        std::mem::replace(&mut self.txn, new).commit(false);
    }

    pub fn insert(&mut self, index: u32, text: &str) {
        self.text.insert(&mut self.txn, index, text);
    }

    pub fn insert_with(&mut self, index: u32, text: &str, a: Attrs) {
        self.text.insert_with_attributes(&mut self.txn, index, text, a);
    }

    pub fn embed(&mut self, index: u32, n: u32) {
        self.text.insert_embed(&mut self.txn, index, Any::BigInt(n as i64));
    }

    pub fn embed_with(&mut self, index: u32, n: u32, a: Attrs) {
        self.text.insert_embed_with_attributes(&mut self.txn, index, Any::BigInt(n as i64), a);
    }

    pub fn format(&mut self, index: u32, len: u32, a: Attrs) {
        self.text.format(&mut self.txn, index, len, a);
    }

    pub fn remove(&mut self, index: u32, len: u32) {
        self.text.remove_range(&mut self.txn, index, len);
    }

    pub fn apply(&mut self, delta: Vec<Delta<Any>>) {
        self.text.apply_delta(&mut self.txn, delta);
    }

    pub fn len(&self) -> u32 {
        self.text.len(&self.txn)
    }

    pub fn diff(&self) -> Vec<types::text::Diff<YChange>> {
        self.text.diff(&self.txn, YChange::identity)
    }

    pub fn event(&self) -> Vec<Delta> {
        types::text::TextEvent::get_delta(self.txn.store.root, &self.txn)
    }

    /// How many items the list has, and the texts of the runs with their attributes.
    pub fn items(&self) -> usize {
        let mut next = self.txn.store.root.start;
        let mut n = 0;
        while let Some(item) = next {
            n += 1;
            next = item.right;
        }
        n
    }
}
