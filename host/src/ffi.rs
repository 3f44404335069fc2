//! The C functions of the static library, with slices in place of pointers.
//!
//! This is the only file with `unsafe`. The flat answers are those of `include/bicycle.h`: `number`
//! is 0, or document 01's number of the refusal, and then every other value is 0, except `needed`
//! with 9.

#[repr(C)]
#[derive(Debug, Clone, Copy, PartialEq, Eq)]
pub struct BuildResult {
    pub number: u32,
    pub entries: u32,
    pub depth: u32,
}

#[repr(C)]
#[derive(Debug, Clone, Copy, PartialEq, Eq)]
pub struct CheckResult {
    pub number: u32,
    pub accepted: u32,
    pub index: u32,
}

#[repr(C)]
#[derive(Debug, Clone, Copy, PartialEq, Eq)]
pub struct LookupResult {
    pub needed: usize,
    pub number: u32,
    pub measures: u32,
    pub native: u32,
    pub base: u32,
    pub rotations: u32,
}

#[repr(C)]
#[derive(Debug, Clone, Copy, PartialEq, Eq)]
pub struct ValueResult {
    pub number: u32,
    pub value: u32,
}

#[repr(C)]
#[derive(Debug, Clone, Copy, PartialEq, Eq)]
pub struct TextResult {
    pub needed: usize,
    pub length: usize,
    pub number: u32,
}

#[repr(C)]
#[derive(Debug, Clone, Copy, PartialEq, Eq)]
pub struct LetterResult {
    pub number: u32,
    pub letter: u32,
    pub first: u32,
    pub second: u32,
}

#[repr(C)]
#[derive(Debug, Clone, Copy, PartialEq, Eq)]
pub struct AutomorphismResult {
    pub generators: u64,
    pub x: u32,
    pub y: u32,
    pub inverse_x: u32,
    pub inverse_y: u32,
}

#[rustfmt::skip] // a slice's pointer and length stay on one line
unsafe extern "C" {
    fn bicycle_build(
        table: *mut u8, table_len: usize,
        queue: *mut u8, queue_len: usize,
        mx: *const u8, mx_len: usize,
        my: *const u8, my_len: usize,
    ) -> BuildResult;
    fn bicycle_check(
        table: *const u8, table_len: usize,
        mx: *const u8, mx_len: usize,
        my: *const u8, my_len: usize,
    ) -> CheckResult;
    fn bicycle_implementation(
        table: *const u8, table_len: usize,
        mx: *const u8, mx_len: usize,
        my: *const u8, my_len: usize,
        p: u32,
        out: *mut u8, out_len: usize,
    ) -> LookupResult;
    fn bicycle_min_data(
        table: *const u8, table_len: usize,
        mx: *const u8, mx_len: usize,
        my: *const u8, my_len: usize,
        p: u32,
        out: *mut u8, out_len: usize,
    ) -> LookupResult;
    fn bicycle_is_empty(table: *const u8, table_len: usize) -> ValueResult;
    fn bicycle_len(table: *const u8, table_len: usize) -> ValueResult;
    fn bicycle_cost(table: *const u8, table_len: usize, p: u32) -> ValueResult;
    fn bicycle_measures(
        mx: *const u8, mx_len: usize,
        my: *const u8, my_len: usize,
        n: u32,
    ) -> ValueResult;
    fn bicycle_native_instructions(n: u32, out: *mut u8, out_len: usize) -> TextResult;
    fn bicycle_rotation_instructions(
        mx: *const u8, mx_len: usize,
        my: *const u8, my_len: usize,
        n: u32,
        out: *mut u8, out_len: usize,
    ) -> TextResult;
    fn bicycle_from_text(text: *const u8, text_len: usize) -> ValueResult;
    fn bicycle_display(p: u32, out: *mut u8, out_len: usize) -> TextResult;
    fn bicycle_list(
        input: *const u8, input_len: usize,
        out: *mut u8, out_len: usize,
    ) -> TextResult;
    safe fn bicycle_commutes_with(p: u32, q: u32) -> ValueResult;
    safe fn bicycle_conjugate_with(p: u32, q: u32) -> ValueResult;
    safe fn bicycle_letter(byte: u8) -> LetterResult;
    safe fn bicycle_automorphism(x: u8, y: u8) -> AutomorphismResult;
    safe fn bicycle_automorphism_mul(x: u8, y: u8, x2: u8, y2: u8) -> AutomorphismResult;
}

// Each call below is sound for one reason: a C function reads and writes only within the slices
// that it is lent, whatever they hold and however long they are, keeps no pointer and does not
// unwind; and a slice of Rust's is never null, nor does one that is written overlap another.

fn lent(s: &[u8]) -> (*const u8, usize) {
    (s.as_ptr(), s.len())
}

fn lent_mut(s: &mut [u8]) -> (*mut u8, usize) {
    (s.as_mut_ptr(), s.len())
}

pub fn build(table: &mut [u8], queue: &mut [u8], mx: &[u8], my: &[u8]) -> BuildResult {
    let ((t, t_len), (q, q_len)) = (lent_mut(table), lent_mut(queue));
    let ((x, x_len), (y, y_len)) = (lent(mx), lent(my));
    unsafe { bicycle_build(t, t_len, q, q_len, x, x_len, y, y_len) }
}

pub fn check(table: &[u8], mx: &[u8], my: &[u8]) -> CheckResult {
    let ((t, t_len), (x, x_len), (y, y_len)) = (lent(table), lent(mx), lent(my));
    unsafe { bicycle_check(t, t_len, x, x_len, y, y_len) }
}

pub fn implementation(table: &[u8], mx: &[u8], my: &[u8], p: u32, out: &mut [u8]) -> LookupResult {
    let ((t, t_len), (x, x_len), (y, y_len)) = (lent(table), lent(mx), lent(my));
    let (o, o_len) = lent_mut(out);
    unsafe { bicycle_implementation(t, t_len, x, x_len, y, y_len, p, o, o_len) }
}

pub fn min_data(table: &[u8], mx: &[u8], my: &[u8], p: u32, out: &mut [u8]) -> LookupResult {
    let ((t, t_len), (x, x_len), (y, y_len)) = (lent(table), lent(mx), lent(my));
    let (o, o_len) = lent_mut(out);
    unsafe { bicycle_min_data(t, t_len, x, x_len, y, y_len, p, o, o_len) }
}

pub fn is_empty(table: &[u8]) -> ValueResult {
    let (t, t_len) = lent(table);
    unsafe { bicycle_is_empty(t, t_len) }
}

pub fn len(table: &[u8]) -> ValueResult {
    let (t, t_len) = lent(table);
    unsafe { bicycle_len(t, t_len) }
}

pub fn cost(table: &[u8], p: u32) -> ValueResult {
    let (t, t_len) = lent(table);
    unsafe { bicycle_cost(t, t_len, p) }
}

pub fn measures(mx: &[u8], my: &[u8], n: u32) -> ValueResult {
    let ((x, x_len), (y, y_len)) = (lent(mx), lent(my));
    unsafe { bicycle_measures(x, x_len, y, y_len, n) }
}

pub fn native_instructions(n: u32, out: &mut [u8]) -> TextResult {
    let (o, o_len) = lent_mut(out);
    unsafe { bicycle_native_instructions(n, o, o_len) }
}

pub fn rotation_instructions(mx: &[u8], my: &[u8], n: u32, out: &mut [u8]) -> TextResult {
    let ((x, x_len), (y, y_len), (o, o_len)) = (lent(mx), lent(my), lent_mut(out));
    unsafe { bicycle_rotation_instructions(x, x_len, y, y_len, n, o, o_len) }
}

pub fn from_text(text: &[u8]) -> ValueResult {
    let (t, t_len) = lent(text);
    unsafe { bicycle_from_text(t, t_len) }
}

pub fn display(p: u32, out: &mut [u8]) -> TextResult {
    let (o, o_len) = lent_mut(out);
    unsafe { bicycle_display(p, o, o_len) }
}

pub fn list(input: &[u8], out: &mut [u8]) -> TextResult {
    let ((i, i_len), (o, o_len)) = (lent(input), lent_mut(out));
    unsafe { bicycle_list(i, i_len, o, o_len) }
}

pub fn commutes_with(p: u32, q: u32) -> ValueResult {
    bicycle_commutes_with(p, q)
}

pub fn conjugate_with(p: u32, q: u32) -> ValueResult {
    bicycle_conjugate_with(p, q)
}

pub fn letter(byte: u8) -> LetterResult {
    bicycle_letter(byte)
}

pub fn automorphism(x: u8, y: u8) -> AutomorphismResult {
    bicycle_automorphism(x, y)
}

pub fn automorphism_mul(x: u8, y: u8, x2: u8, y2: u8) -> AutomorphismResult {
    bicycle_automorphism_mul(x, y, x2, y2)
}
