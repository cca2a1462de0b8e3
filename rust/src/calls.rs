//! The calls of `include/ix.h`, which want pointers that are not null, to as many bytes as is said, that do not overlap.

use crate::error::{Area, Error};
use std::ptr;

#[repr(C)]
#[derive(Default)]
struct Found {
    count: usize,
    size: usize,
    area: u32,
    number: u32,
}

/// The handle of an opened index. All zero bits: closed.
#[repr(C)]
pub(crate) struct Handle {
    is_open: bool,
    held: *mut u8,
}

// SAFETY: what a handle holds is plain data, which any thread may use and free, one at a time: `include/ix.h`.
unsafe impl Send for Handle {}

impl Handle {
    /// The handle of this index text, of which it keeps a copy.
    pub(crate) fn open(text: &[u8]) -> Result<Handle, Error> {
        let mut handle = Handle { is_open: false, held: ptr::null_mut() };
        call(Call::Open(&mut handle, text), 1 << 8)?;
        Ok(handle)
    }
}

impl Drop for Handle {
    fn drop(&mut self) {
        // SAFETY: the handle was made by `open`, and nobody else has it.
        unsafe { ix_index_close(self) }
    }
}

const DONE: u32 = 0;

extern "C" {
    fn ix_ask(
        collection: *const u8,
        collection_size: usize,
        stop: *const u8,
        stop_size: usize,
        query: *const u8,
        query_size: usize,
        out: *mut u8,
        out_size: usize,
        found: *mut Found,
    ) -> u32;
    fn ix_build(
        collection: *const u8,
        collection_size: usize,
        stop: *const u8,
        stop_size: usize,
        out: *mut u8,
        out_size: usize,
        found: *mut Found,
    ) -> u32;
    fn ix_run(
        collection: *const u8,
        collection_size: usize,
        stop: *const u8,
        stop_size: usize,
        first: u32,
        out: *mut u8,
        out_size: usize,
        found: *mut Found,
    ) -> u32;
    fn ix_merge(
        runs: *const u8,
        runs_size: usize,
        sizes: *const usize,
        count: usize,
        out: *mut u8,
        out_size: usize,
        found: *mut Found,
    ) -> u32;
    fn ix_search_trusting(
        index: *const u8,
        index_size: usize,
        query: *const u8,
        query_size: usize,
        out: *mut u8,
        out_size: usize,
        found: *mut Found,
    ) -> u32;
    fn ix_index_open(
        index: *mut Handle,
        text: *const u8,
        text_size: usize,
        out: *mut u8,
        out_size: usize,
        found: *mut Found,
    ) -> u32;
    fn ix_index_close(index: *mut Handle);
    fn ix_index_search(
        index: *mut Handle,
        query: *const u8,
        query_size: usize,
        out: *mut u8,
        out_size: usize,
        found: *mut Found,
    ) -> u32;
    fn ix_index_terms(
        index: *mut Handle,
        pattern: *const u8,
        pattern_size: usize,
        out: *mut u8,
        out_size: usize,
        found: *mut Found,
    ) -> u32;
    fn ix_index_names(index: *mut Handle, out: *mut u8, out_size: usize, found: *mut Found) -> u32;
}

/// A call, with its texts.
pub(crate) enum Call<'a> {
    Ask(&'a [u8], &'a [u8], &'a [u8]),
    Build(&'a [u8], &'a [u8]),
    Run(&'a [u8], &'a [u8], u32),
    Merge(&'a [u8], &'a [usize]),
    SearchTrusting(&'a [u8], &'a [u8]),
    Open(&'a mut Handle, &'a [u8]),
    Search(&'a mut Handle, &'a [u8]),
    Terms(&'a mut Handle, &'a [u8]),
    Names(&'a mut Handle),
}

impl Call<'_> {
    /// Makes the call with this buffer.
    fn make(&mut self, out: &mut [u8], found: &mut Found) -> u32 {
        let (to, room) = (out.as_mut_ptr(), out.len());
        // SAFETY: the pointers of slices and references are not null, also of empty ones; `out`, `found` and the handle
        // are borrowed for this call alone, so that they overlap nothing; the length of a slice is at most `isize::MAX`.
        unsafe {
            match self {
                Call::Ask(text, stop, query) => ix_ask(
                    text.as_ptr(),
                    text.len(),
                    stop.as_ptr(),
                    stop.len(),
                    query.as_ptr(),
                    query.len(),
                    to,
                    room,
                    found,
                ),
                Call::Build(text, stop) => {
                    ix_build(text.as_ptr(), text.len(), stop.as_ptr(), stop.len(), to, room, found)
                }
                Call::Run(text, stop, first) => {
                    ix_run(text.as_ptr(), text.len(), stop.as_ptr(), stop.len(), *first, to, room, found)
                }
                Call::Merge(runs, sizes) => {
                    ix_merge(runs.as_ptr(), runs.len(), sizes.as_ptr(), sizes.len(), to, room, found)
                }
                Call::SearchTrusting(text, query) => {
                    ix_search_trusting(text.as_ptr(), text.len(), query.as_ptr(), query.len(), to, room, found)
                }
                Call::Open(index, text) => {
                    ix_index_open(*index, text.as_ptr(), text.len(), to, room, found)
                }
                Call::Search(index, query) => {
                    ix_index_search(*index, query.as_ptr(), query.len(), to, room, found)
                }
                Call::Terms(index, pattern) => {
                    ix_index_terms(*index, pattern.as_ptr(), pattern.len(), to, room, found)
                }
                Call::Names(index) => ix_index_names(*index, to, room, found),
            }
        }
    }
}

/// The bytes that a call gives, and the count that it tells. `room` is a guess of how many bytes there are.
pub(crate) fn call(mut call: Call<'_>, room: usize) -> Result<(Vec<u8>, usize), Error> {
    let mut out = vec![0; room];
    let mut found = Found::default();
    let mut status = call.make(&mut out, &mut found);
    while found.size > out.len() {
        out.resize(found.size, 0);
        status = call.make(&mut out, &mut found);
    }
    out.truncate(found.size);
    if status == DONE {
        return Ok((out, found.count));
    }
    Err(Error {
        area: Area::of(found.area),
        number: found.number,
        line: String::from_utf8_lossy(&out).into_owned(),
    })
}
