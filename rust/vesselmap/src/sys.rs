//! The proved library as C sees it: the only unsafe code of the crate. A Rattle slice is a pointer and a length.
//!
//! The same holds of every call below. A slice goes as its own pointer and length, so all of it may be read for as
//! long as the call lasts, and written, by nobody else, if it is lent as `&mut`; any length will do, none too. The
//! library is proved to stay within its slices for all arguments that the types admit, and keeps no pointer. The
//! structs have C's layout and the fields of those in crates/capi_flat, of plain numbers, for which every pattern is a value.
use crate::{Axes, Cell, Placement, Refusal};

/// The number 0, or a refusal's number and place.
#[repr(C)]
pub struct Verdict {
    number: u8,
    place: usize,
}

impl Verdict {
    pub fn give<A>(self, answer: A) -> Result<A, Refusal> {
        match self.number {
            0 => Ok(answer),
            number => Err(Refusal { number, place: self.place }),
        }
    }
}

// Each answer begins with the fields of a verdict, as its struct in crates/capi_flat does.

#[repr(C)]
pub struct Sized {
    pub verdict: Verdict,
    pub axes: Axes,
    pub placement: Placement,
}

#[repr(C)]
pub struct Filled {
    pub verdict: Verdict,
    pub scans: usize,
    pub left: usize,
}

#[repr(C)]
pub struct Counted {
    pub verdict: Verdict,
    pub count: usize,
}

#[repr(C)]
pub struct Listed {
    pub verdict: Verdict,
    pub cells: usize,
    pub pairs: usize,
}

#[repr(C)]
pub struct Planned {
    pub verdict: Verdict,
    pub first: usize,
    pub count: usize,
}

#[repr(C)]
pub struct Parted {
    pub verdict: Verdict,
    pub first: usize,
    pub second: usize,
}

#[repr(C)]
pub struct Summarized {
    pub verdict: Verdict,
    pub axes: Axes,
    pub outside: usize,
    pub inside: usize,
    pub surface: usize,
    pub left: usize,
    pub scans: usize,
}

#[repr(C)]
pub struct Slice {
    pub start: usize,
    pub length: usize,
}

mod c {
    use super::*;

    extern "C" {
        pub fn vm_size_by_cell(points: *const f32, points_len: usize, size: f32) -> Sized;
        pub fn vm_size_by_resolution(points: *const f32, points_len: usize, resolution: u32) -> Sized;
        pub fn vm_mark(
            points: *const f32,
            points_len: usize,
            triangles: *const u32,
            triangles_len: usize,
            r: Axes,
            at: Placement,
            labels: *mut u8,
            labels_len: usize,
        ) -> Verdict;
        pub fn vm_fill_surface(labels: *mut u8, labels_len: usize, r: Axes) -> Filled;
        pub fn vm_fill_flood(labels: *mut u8, labels_len: usize, r: Axes) -> Filled;
        pub fn vm_fill_cavities(labels: *mut u8, labels_len: usize, r: Axes) -> Filled;
        pub fn vm_open_cell(labels: *mut u8, labels_len: usize, r: Axes, c: Cell) -> Counted;
        pub fn vm_close_cell(labels: *mut u8, labels_len: usize, r: Axes, c: Cell) -> Counted;
        pub fn vm_list_cells(
            labels: *const u8,
            labels_len: usize,
            r: Axes,
            records: *mut u32,
            records_len: usize,
        ) -> Listed;
        pub fn vm_list_pairs(
            points: *const f32,
            points_len: usize,
            triangles: *const u32,
            triangles_len: usize,
            r: Axes,
            at: Placement,
            labels: *const u8,
            labels_len: usize,
            records: *mut u32,
            records_len: usize,
            list: *mut u32,
            list_len: usize,
        ) -> Listed;
        pub fn vm_check_range(list: *const u32, list_len: usize, start: u32, end: u32) -> Verdict;
        pub fn vm_list_slice(list: *const u32, list_len: usize, start: u32, end: u32) -> Slice;
        pub fn vm_classify(
            entries: *const u32,
            entries_len: usize,
            ends: *const u32,
            ends_len: usize,
            count: usize,
            classes: *mut u32,
            classes_len: usize,
        ) -> Verdict;
        pub fn vm_planes(
            at: Placement,
            axis: usize,
            low: usize,
            high: usize,
            best: usize,
            step: usize,
            ds: *mut f32,
            ds_len: usize,
        ) -> Planned;
        pub fn vm_split(
            points: *const f32,
            points_len: usize,
            axis: usize,
            d: f32,
            above: *mut f32,
            above_len: usize,
            below: *mut f32,
            below_len: usize,
        ) -> Parted;
        pub fn vm_boxes(
            labels: *const u8,
            labels_len: usize,
            r: Axes,
            at: Placement,
            label: u8,
            points: *mut f32,
            points_len: usize,
            triangles: *mut u32,
            triangles_len: usize,
        ) -> Counted;
        pub fn vm_summarize(input: *const u8, input_len: usize) -> Summarized;
        pub fn vm_run(input: *const u8, input_len: usize, output: *mut u8, output_len: usize) -> Counted;
    }
}

pub fn size_by_cell(points: &[f32], size: f32) -> Sized {
    // SAFETY: one slice, only read; a float by value.
    unsafe { c::vm_size_by_cell(points.as_ptr(), points.len(), size) }
}

pub fn size_by_resolution(points: &[f32], resolution: u32) -> Sized {
    // SAFETY: one slice, only read; a number by value.
    unsafe { c::vm_size_by_resolution(points.as_ptr(), points.len(), resolution) }
}

pub fn mark(points: &[f32], triangles: &[u32], r: Axes, at: Placement, labels: &mut [u8]) -> Verdict {
    // SAFETY: two slices, only read, and one lent to be written, which the other two cannot overlap; structs by value.
    unsafe {
        c::vm_mark(
            points.as_ptr(),
            points.len(),
            triangles.as_ptr(),
            triangles.len(),
            r,
            at,
            labels.as_mut_ptr(),
            labels.len(),
        )
    }
}

pub fn fill_surface(labels: &mut [u8], r: Axes) -> Filled {
    // SAFETY: one slice, lent to be written; a struct by value.
    unsafe { c::vm_fill_surface(labels.as_mut_ptr(), labels.len(), r) }
}

pub fn fill_flood(labels: &mut [u8], r: Axes) -> Filled {
    // SAFETY: one slice, lent to be written; a struct by value.
    unsafe { c::vm_fill_flood(labels.as_mut_ptr(), labels.len(), r) }
}

pub fn fill_cavities(labels: &mut [u8], r: Axes) -> Filled {
    // SAFETY: one slice, lent to be written; a struct by value.
    unsafe { c::vm_fill_cavities(labels.as_mut_ptr(), labels.len(), r) }
}

pub fn open(labels: &mut [u8], r: Axes, cell: Cell) -> Counted {
    // SAFETY: one slice, lent to be written; structs by value.
    unsafe { c::vm_open_cell(labels.as_mut_ptr(), labels.len(), r, cell) }
}

pub fn close(labels: &mut [u8], r: Axes, cell: Cell) -> Counted {
    // SAFETY: one slice, lent to be written; structs by value.
    unsafe { c::vm_close_cell(labels.as_mut_ptr(), labels.len(), r, cell) }
}

pub fn list_cells(labels: &[u8], r: Axes, records: &mut [u32]) -> Listed {
    // SAFETY: one slice, only read, and one lent to be written, which it cannot overlap; a struct by value.
    unsafe { c::vm_list_cells(labels.as_ptr(), labels.len(), r, records.as_mut_ptr(), records.len()) }
}

pub fn list_pairs(
    points: &[f32],
    triangles: &[u32],
    r: Axes,
    at: Placement,
    labels: &[u8],
    records: &mut [u32],
    list: &mut [u32],
) -> Listed {
    // SAFETY: three slices, only read, and two lent to be written, which overlap nothing; structs by value.
    unsafe {
        c::vm_list_pairs(
            points.as_ptr(),
            points.len(),
            triangles.as_ptr(),
            triangles.len(),
            r,
            at,
            labels.as_ptr(),
            labels.len(),
            records.as_mut_ptr(),
            records.len(),
            list.as_mut_ptr(),
            list.len(),
        )
    }
}

pub fn check_range(list: &[u32], start: u32, end: u32) -> Verdict {
    // SAFETY: one slice, only read; numbers by value.
    unsafe { c::vm_check_range(list.as_ptr(), list.len(), start, end) }
}

pub fn list_slice(list: &[u32], start: u32, end: u32) -> Slice {
    // SAFETY: one slice, only read; numbers by value.
    unsafe { c::vm_list_slice(list.as_ptr(), list.len(), start, end) }
}

pub fn classify(entries: &[u32], ends: &[u32], count: usize, classes: &mut [u32]) -> Verdict {
    // SAFETY: two slices, only read, and one lent to be written, which they cannot overlap; a number by value.
    unsafe {
        c::vm_classify(
            entries.as_ptr(),
            entries.len(),
            ends.as_ptr(),
            ends.len(),
            count,
            classes.as_mut_ptr(),
            classes.len(),
        )
    }
}

pub fn planes(
    at: Placement,
    axis: usize,
    low: usize,
    high: usize,
    best: usize,
    step: usize,
    ds: &mut [f32],
) -> Planned {
    // SAFETY: one slice, lent to be written; a struct and numbers by value.
    unsafe { c::vm_planes(at, axis, low, high, best, step, ds.as_mut_ptr(), ds.len()) }
}

pub fn split(points: &[f32], axis: usize, d: f32, above: &mut [f32], below: &mut [f32]) -> Parted {
    // SAFETY: one slice, only read, and two lent to be written, which overlap nothing; numbers by value.
    unsafe {
        c::vm_split(
            points.as_ptr(),
            points.len(),
            axis,
            d,
            above.as_mut_ptr(),
            above.len(),
            below.as_mut_ptr(),
            below.len(),
        )
    }
}

pub fn boxes(labels: &[u8], r: Axes, at: Placement, label: u8, points: &mut [f32], triangles: &mut [u32]) -> Counted {
    // SAFETY: one slice, only read, and two lent to be written, which overlap nothing; structs and a number by value.
    unsafe {
        c::vm_boxes(
            labels.as_ptr(),
            labels.len(),
            r,
            at,
            label,
            points.as_mut_ptr(),
            points.len(),
            triangles.as_mut_ptr(),
            triangles.len(),
        )
    }
}

pub fn summarize(input: &[u8]) -> Summarized {
    // SAFETY: one slice, only read.
    unsafe { c::vm_summarize(input.as_ptr(), input.len()) }
}

pub fn run(input: &[u8], output: &mut [u8]) -> Counted {
    // SAFETY: one slice, only read, and one lent to be written, which it cannot overlap.
    unsafe { c::vm_run(input.as_ptr(), input.len(), output.as_mut_ptr(), output.len()) }
}
