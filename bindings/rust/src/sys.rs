//! The proved calls, as the archive has them: a slice is a pointer and a length.

extern "C" {
    pub fn indovalump_fresh(head: &mut [u32; 3]);
    pub fn indovalump_sound(head: &[u32; 3], items: *const u64, items_len: usize, units: *const u16, units_len: usize) -> bool;
    pub fn indovalump_begin(head: &mut [u32; 3], items: *mut u64, items_len: usize, units: *const u16, units_len: usize) -> u32;
    pub fn indovalump_insert(
        head: &mut [u32; 3],
        items: *mut u64,
        items_len: usize,
        units: *mut u16,
        units_len: usize,
        index: u32,
        text: *const u16,
        text_len: usize,
    ) -> u32;
    pub fn indovalump_insert_with_attributes(
        head: &mut [u32; 3],
        items: *mut u64,
        items_len: usize,
        units: *mut u16,
        units_len: usize,
        index: u32,
        text: *const u16,
        text_len: usize,
        mask: u16,
        values: &[u8; 16],
    ) -> u32;
    pub fn indovalump_insert_embed(
        head: &mut [u32; 3],
        items: *mut u64,
        items_len: usize,
        units: *const u16,
        units_len: usize,
        index: u32,
        number: u32,
    ) -> u32;
    pub fn indovalump_insert_embed_with_attributes(
        head: &mut [u32; 3],
        items: *mut u64,
        items_len: usize,
        units: *const u16,
        units_len: usize,
        index: u32,
        number: u32,
        mask: u16,
        values: &[u8; 16],
    ) -> u32;
    pub fn indovalump_format(
        head: &mut [u32; 3],
        items: *mut u64,
        items_len: usize,
        units: *const u16,
        units_len: usize,
        index: u32,
        len: u32,
        mask: u16,
        values: &[u8; 16],
    ) -> u32;
    pub fn indovalump_remove_range(
        head: &mut [u32; 3],
        items: *mut u64,
        items_len: usize,
        units: *const u16,
        units_len: usize,
        index: u32,
        len: u32,
    ) -> u32;
    pub fn indovalump_apply_delta(
        head: &mut [u32; 3],
        items: *mut u64,
        items_len: usize,
        units: *mut u16,
        units_len: usize,
        ops: *const u32,
        ops_len: usize,
        text: *const u16,
        text_len: usize,
        scratch_items: *const u64,
        scratch_items_len: usize,
        scratch_units: *const u16,
        scratch_units_len: usize,
    ) -> u32;
    pub fn indovalump_len(head: &[u32; 3], items: *const u64, items_len: usize, units: *const u16, units_len: usize, len: &mut u32) -> u32;
    pub fn indovalump_count_runs(
        head: &[u32; 3],
        items: *const u64,
        items_len: usize,
        units: *const u16,
        units_len: usize,
        joined: bool,
        count: &mut usize,
    ) -> u32;
    pub fn indovalump_run_at(
        head: &[u32; 3],
        items: *const u64,
        items_len: usize,
        units: *const u16,
        units_len: usize,
        joined: bool,
        n: u32,
        run: &mut [u32; 8],
    ) -> u32;
    pub fn indovalump_runs(
        head: &[u32; 3],
        items: *const u64,
        items_len: usize,
        units: *const u16,
        units_len: usize,
        joined: bool,
        ops: *mut u32,
        ops_len: usize,
        count: &mut usize,
    ) -> u32;
    pub fn indovalump_text(
        head: &[u32; 3],
        items: *const u64,
        items_len: usize,
        units: *const u16,
        units_len: usize,
        index: u32,
        len: u32,
        out: *mut u16,
        out_len: usize,
        count: &mut usize,
    ) -> u32;
    pub fn indovalump_event(
        head: &[u32; 3],
        items: *const u64,
        items_len: usize,
        units: *const u16,
        units_len: usize,
        ops: *mut u32,
        ops_len: usize,
        texts: *mut u16,
        texts_len: usize,
        counts: &mut [u32; 2],
    ) -> u32;
    pub fn indovalump_table_fresh(head: &mut [u32; 2]);
    pub fn indovalump_table_sound(head: &[u32; 2], table: *const u8, table_len: usize) -> bool;
    pub fn indovalump_ask_name(
        head: &mut [u32; 2],
        table: *mut u8,
        table_len: usize,
        name: *const u8,
        name_len: usize,
        number: &mut u32,
    ) -> u32;
    pub fn indovalump_ask_bool(head: &mut [u32; 2], table: *mut u8, table_len: usize, value: bool, number: &mut u32) -> u32;
    pub fn indovalump_ask_int(head: &mut [u32; 2], table: *mut u8, table_len: usize, value: i64, number: &mut u32) -> u32;
    pub fn indovalump_ask_string(
        head: &mut [u32; 2],
        table: *mut u8,
        table_len: usize,
        value: *const u8,
        value_len: usize,
        number: &mut u32,
    ) -> u32;
    pub fn indovalump_name(
        head: &[u32; 2],
        table: *const u8,
        table_len: usize,
        n: u32,
        out: *mut u8,
        out_len: usize,
        count: &mut usize,
    ) -> u32;
    pub fn indovalump_string(
        head: &[u32; 2],
        table: *const u8,
        table_len: usize,
        v: u32,
        out: *mut u8,
        out_len: usize,
        count: &mut usize,
    ) -> u32;
    pub fn indovalump_value(head: &[u32; 2], table: *const u8, table_len: usize, v: u32, number: &mut i64) -> u32;
}
