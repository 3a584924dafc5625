//! The proved library behind safe functions. The only `unsafe` of this project is here.
//!
//! What `include/yaropesk.h` asks of a caller, Rust's slices keep by themselves: their
//! pointers are not null, the count of bytes behind them is their length, and a slice
//! that is written overlaps no other.

use crate::calls::Calls;
use crate::model::Panel;

extern "C" {
    fn yaropesk_reset(
        record: *mut u8,
        record_length: usize,
        memory: *mut u8,
        memory_length: usize,
    ) -> u32;

    fn yaropesk_transfer(
        record: *mut u8,
        record_length: usize,
        memory: *mut u8,
        memory_length: usize,
        kind: u8,
        byte: u8,
        wait: u32,
    ) -> u32;

    fn yaropesk_picture(
        record: *const u8,
        record_length: usize,
        memory: *const u8,
        memory_length: usize,
        profile: u8,
        columns: u8,
        lines: u8,
        lit: u8,
        out: *mut u8,
        out_length: usize,
    ) -> u32;

    fn yaropesk_plan(
        wish: *const u8,
        wish_length: usize,
        marks: *const u8,
        marks_length: usize,
        values: *const u8,
        values_length: usize,
        out: *mut u8,
        out_length: usize,
    ) -> u32;

    fn yaropesk_write_line(kind: u8, byte: u8, wait: u32, out: *mut u8, out_length: usize) -> u32;

    fn yaropesk_read_line(
        text: *const u8,
        text_length: usize,
        out: *mut u8,
        out_length: usize,
    ) -> u32;

    fn yaropesk_import(
        capture: *const u8,
        capture_length: usize,
        out: *mut u8,
        out_length: usize,
    ) -> u64;
}

/// The proved library.
#[derive(Clone, Copy)]
pub struct Library;

impl Calls for Library {
    #[inline]
    fn reset(&self, record: &mut [u8], memory: &mut [u8]) -> u32 {
        let (record_length, memory_length) = (record.len(), memory.len());
        // SAFETY: two slices apart from each other, each with its own length.
        unsafe {
            yaropesk_reset(
                record.as_mut_ptr(),
                record_length,
                memory.as_mut_ptr(),
                memory_length,
            )
        }
    }

    #[inline]
    fn transfer(&self, record: &mut [u8], memory: &mut [u8], kind: u8, byte: u8, wait: u32) -> u32 {
        let (record_length, memory_length) = (record.len(), memory.len());
        // SAFETY: two slices apart from each other, each with its own length.
        unsafe {
            yaropesk_transfer(
                record.as_mut_ptr(),
                record_length,
                memory.as_mut_ptr(),
                memory_length,
                kind,
                byte,
                wait,
            )
        }
    }

    #[inline]
    fn picture(&self, record: &[u8], memory: &[u8], panel: Panel, lit: u8, out: &mut [u8]) -> u32 {
        let out_length = out.len();
        // SAFETY: the output overlaps no other slice, and each has its own length.
        unsafe {
            yaropesk_picture(
                record.as_ptr(),
                record.len(),
                memory.as_ptr(),
                memory.len(),
                panel.profile,
                panel.size.columns,
                panel.size.lines,
                lit,
                out.as_mut_ptr(),
                out_length,
            )
        }
    }

    #[inline]
    fn plan(&self, wish: &[u8], marks: &[u8], values: &[u8], out: &mut [u8]) -> u32 {
        let out_length = out.len();
        // SAFETY: the output overlaps no other slice, and each has its own length.
        unsafe {
            yaropesk_plan(
                wish.as_ptr(),
                wish.len(),
                marks.as_ptr(),
                marks.len(),
                values.as_ptr(),
                values.len(),
                out.as_mut_ptr(),
                out_length,
            )
        }
    }

    #[inline]
    fn write_line(&self, kind: u8, byte: u8, wait: u32, out: &mut [u8]) -> u32 {
        let out_length = out.len();
        // SAFETY: one slice with its own length.
        unsafe { yaropesk_write_line(kind, byte, wait, out.as_mut_ptr(), out_length) }
    }

    #[inline]
    fn read_line(&self, text: &[u8], out: &mut [u8]) -> u32 {
        let out_length = out.len();
        // SAFETY: the output overlaps no other slice, and each has its own length.
        unsafe { yaropesk_read_line(text.as_ptr(), text.len(), out.as_mut_ptr(), out_length) }
    }

    #[inline]
    fn import(&self, capture: &[u8], out: &mut [u8]) -> u64 {
        let out_length = out.len();
        // SAFETY: the output overlaps no other slice, and each has its own length.
        unsafe {
            yaropesk_import(
                capture.as_ptr(),
                capture.len(),
                out.as_mut_ptr(),
                out_length,
            )
        }
    }
}
