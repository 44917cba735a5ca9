//! The library's functions, as `bindings/c/mavisdrok.h` declares them: a lent slice is its first cell and its length.

extern "C" {
    pub fn mavisdrok_version() -> *const std::ffi::c_char;
    pub fn mavisdrok_read(
        text: *const u8, text_len: usize, atoms: *mut u32, atoms_len: usize, bonds: *mut u32, bonds_len: usize,
        report: *mut u64, report_len: usize,
    );
    pub fn mavisdrok_write(
        atoms: *const u32, atoms_len: usize, n: usize, bonds: *const u32, bonds_len: usize, m: usize, out: *mut u8,
        out_len: usize, report: *mut u64, report_len: usize,
    );
    pub fn mavisdrok_order(
        atoms: *const u32, atoms_len: usize, n: usize, bonds: *const u32, bonds_len: usize, m: usize, walked: *mut u32,
        walked_len: usize, number: *mut u32, number_len: usize, back: *mut u32, back_len: usize, report: *mut u64,
        report_len: usize,
    );
    pub fn mavisdrok_builder_start(
        atoms: *const u32, atoms_len: usize, entries: *const u32, entries_len: usize, path: *const u32,
        path_len: usize, rings: *mut u32, rings_len: usize, state: *mut u64, state_len: usize, report: *mut u64,
        report_len: usize,
    );
    pub fn mavisdrok_builder_root(
        atoms: *mut u32, atoms_len: usize, entries: *const u32, entries_len: usize, path: *mut u32, path_len: usize,
        rings: *const u32, rings_len: usize, state: *mut u64, state_len: usize, first: u32, second: u32,
        report: *mut u64, report_len: usize,
    );
    pub fn mavisdrok_builder_extend(
        atoms: *mut u32, atoms_len: usize, entries: *mut u32, entries_len: usize, path: *mut u32, path_len: usize,
        rings: *const u32, rings_len: usize, state: *mut u64, state_len: usize, bond: u32, first: u32, second: u32,
        report: *mut u64, report_len: usize,
    );
    pub fn mavisdrok_builder_join(
        atoms: *const u32, atoms_len: usize, entries: *mut u32, entries_len: usize, path: *const u32, path_len: usize,
        rings: *mut u32, rings_len: usize, state: *mut u64, state_len: usize, bond: u32, number: u32,
        report: *mut u64, report_len: usize,
    );
    pub fn mavisdrok_builder_pop(
        atoms: *const u32, atoms_len: usize, entries: *const u32, entries_len: usize, path: *const u32,
        path_len: usize, rings: *const u32, rings_len: usize, state: *mut u64, state_len: usize, n: usize,
        report: *mut u64, report_len: usize,
    );
    pub fn mavisdrok_builder_build(
        atoms: *mut u32, atoms_len: usize, bonds: *mut u32, bonds_len: usize, entries: *const u32, entries_len: usize,
        path: *const u32, path_len: usize, rings: *const u32, rings_len: usize, state: *const u64, state_len: usize,
        report: *mut u64, report_len: usize,
    );
    pub fn mavisdrok_writer_root(
        out: *mut u8, out_len: usize, starts: *mut u32, starts_len: usize, state: *mut u64, state_len: usize,
        first: u32, second: u32, report: *mut u64, report_len: usize,
    );
    pub fn mavisdrok_writer_extend(
        out: *mut u8, out_len: usize, starts: *mut u32, starts_len: usize, state: *mut u64, state_len: usize,
        bond: u32, first: u32, second: u32, report: *mut u64, report_len: usize,
    );
    pub fn mavisdrok_writer_join(
        out: *mut u8, out_len: usize, starts: *mut u32, starts_len: usize, state: *mut u64, state_len: usize,
        bond: u32, number: u32, report: *mut u64, report_len: usize,
    );
    pub fn mavisdrok_writer_pop(
        out: *mut u8, out_len: usize, starts: *mut u32, starts_len: usize, state: *mut u64, state_len: usize,
        n: usize, report: *mut u64, report_len: usize,
    );
    pub fn mavisdrok_pool_hit(
        pairs: *mut u32, pairs_len: usize, state: *mut u64, state_len: usize, a: u32, b: u32, report: *mut u64,
        report_len: usize,
    );
    pub fn mavisdrok_read_atom(
        text: *const u8, text_len: usize, kind: *mut u32, kind_len: usize, report: *mut u64, report_len: usize,
    );
    pub fn mavisdrok_spell_atom(out: *mut u8, out_len: usize, first: u32, second: u32, report: *mut u64, report_len: usize);
    pub fn mavisdrok_spell_bond(out: *mut u8, out_len: usize, bond: u32, report: *mut u64, report_len: usize);
    pub fn mavisdrok_spell_rnum(out: *mut u8, out_len: usize, number: u32, report: *mut u64, report_len: usize);
}
