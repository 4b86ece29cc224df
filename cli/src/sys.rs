//! The calls of the two libraries and of the system: the one file with `unsafe`.
//!
//! The libraries' (include/mukerihe.h, include/mukerihe_bank.h), with slices for lists; what a call
//! refuses comes back as its number:
//!
//!   plan         what a job needs
//!   draw         masks from random words
//!   Side         which matrix is shared
//!   share        a host's share of A or of B
//!   write        a message
//!   read         a message's fields
//!   arrive       an answer taken into the store
//!   decode       the table
//!   multiply     a product of elements
//!   signed       the signed reading of an element
//!   element      the way back
//!   page         a table as lines of text
//!   answer       a host's whole part
//!   JOB_WORDS, FIELD_WORDS
//!                how many words a job and a message's fields have
//!   MOST_MESSAGE the bytes of the longest message
//!
//! The system's:
//!
//!   random             bytes of the system's random source, as many as one call gives
//!   rename             a file or folder renamed; nothing is replaced
//!   output_was_closed  standard output was closed when the command began

use std::ffi::CString;
use std::io;
use std::os::raw::{c_char, c_int, c_uint, c_void};
use std::os::unix::ffi::OsStrExt;
use std::path::Path;
use std::sync::atomic::{AtomicBool, Ordering};

/// The libraries' functions.
#[path = "../../include/mukerihe.rs"]
mod libraries;

use libraries::{
    mukerihe_answer, mukerihe_arrive, mukerihe_decode, mukerihe_draw, mukerihe_element,
    mukerihe_multiply, mukerihe_page, mukerihe_page_length, mukerihe_plan, mukerihe_read,
    mukerihe_share_a, mukerihe_share_b, mukerihe_signed, mukerihe_write,
};

#[rustfmt::skip]
extern "C" {
    fn getrandom(buffer: *mut c_void, length: usize, flags: c_uint) -> isize;

    fn renameat2(
        old_folder: c_int, old: *const c_char, new_folder: c_int, new: *const c_char, flags: c_uint,
    ) -> c_int;

    fn fcntl(descriptor: c_int, command: c_int, ...) -> c_int;

    fn signal(number: c_int, handler: usize) -> usize;
}

/// How many words a job has.
pub const JOB_WORDS: usize = 13;

/// How many words a message's fields have.
pub const FIELD_WORDS: usize = 6;

/// How many words the values of a plan have.
const PLAN_WORDS: usize = 5;

/// The bytes of the longest message.
pub const MOST_MESSAGE: usize = 16400;

/// The most elements of a block: what `read` wants room for.
const MOST_ELEMENTS: usize = 4096;

/// For paths as they are: from the folder in which the command was started.
const AT_FDCWD: c_int = -100;

/// A file or folder that is there is not replaced.
const RENAME_NOREPLACE: c_uint = 1;

/// Asks for the flags of a descriptor.
const F_GETFD: c_int = 1;

/// The signal of a file that gets larger than it may.
const SIGXFSZ: c_int = 25;

/// A signal is passed over: the write that it came with fails then.
const SIG_IGN: usize = 1;

/// What a call that returned a number has done.
fn done(number: u32) -> Result<(), u32> {
    match number {
        0 => Ok(()),
        _ => Err(number),
    }
}

/// What a job needs: layout, K, and rows, inner and columns of its blocks.
pub fn plan(job: &[u32; JOB_WORDS], points: &[u32]) -> Result<[u32; PLAN_WORDS], u32> {
    let mut values = [0; PLAN_WORDS];
    // Each pointer comes with the length of its slice.
    let number = unsafe {
        mukerihe_plan(
            job.as_ptr(),
            job.len(),
            points.as_ptr(),
            points.len(),
            values.as_mut_ptr(),
            values.len(),
        )
    };
    done(number).map(|()| values)
}

/// Draws as many masks as `out` is long; how many words were used.
pub fn draw(modulus: u32, words: &[u32], out: &mut [u32]) -> Result<usize, u32> {
    let mut used = 0;
    // Each pointer comes with the length of its slice.
    let number = unsafe {
        mukerihe_draw(
            modulus,
            words.as_ptr(),
            words.len(),
            out.as_mut_ptr(),
            out.len(),
            &mut used,
        )
    };
    done(number).map(|()| used)
}

/// Which matrix is shared.
#[derive(Clone, Copy)]
pub enum Side {
    A,
    B,
}

/// Makes a host's share of a side.
pub fn share(
    side: Side,
    (job, points): (&[u32; JOB_WORDS], &[u32]),
    host: u32,
    (elements, masks): (&[u32], &[u32]),
    out: &mut [u32],
) -> Result<(), u32> {
    let call = match side {
        Side::A => mukerihe_share_a,
        Side::B => mukerihe_share_b,
    };
    // Each pointer comes with the length of its slice.
    done(unsafe {
        call(
            job.as_ptr(),
            job.len(),
            points.as_ptr(),
            points.len(),
            host,
            elements.as_ptr(),
            elements.len(),
            masks.as_ptr(),
            masks.len(),
            out.as_mut_ptr(),
            out.len(),
        )
    })
}

/// Writes a message.
pub fn write(fields: &[u32; FIELD_WORDS], elements: &[u32], out: &mut [u8]) -> Result<(), u32> {
    // Each pointer comes with the length of its slice.
    done(unsafe {
        mukerihe_write(
            fields.as_ptr(),
            fields.len(),
            elements.as_ptr(),
            elements.len(),
            out.as_mut_ptr(),
            out.len(),
        )
    })
}

/// Reads a message: its fields.
pub fn read(message: &[u8]) -> Result<[u32; FIELD_WORDS], u32> {
    let mut elements = vec![0; MOST_ELEMENTS];
    let mut fields = [0; FIELD_WORDS];
    // Each pointer comes with the length of its slice.
    let number = unsafe {
        mukerihe_read(
            message.as_ptr(),
            message.len(),
            elements.as_mut_ptr(),
            elements.len(),
            fields.as_mut_ptr(),
            fields.len(),
        )
    };
    done(number).map(|()| fields)
}

/// Takes an answer's message at a minute; true where it was in already.
pub fn arrive(
    (job, points): (&[u32; JOB_WORDS], &[u32]),
    heard: &mut u64,
    store: &mut [u32],
    message: &[u8],
    minute: u32,
) -> Result<bool, u32> {
    let mut already = 0;
    // Each pointer comes with the length of its slice.
    let number = unsafe {
        mukerihe_arrive(
            job.as_ptr(),
            job.len(),
            points.as_ptr(),
            points.len(),
            heard,
            store.as_mut_ptr(),
            store.len(),
            message.as_ptr(),
            message.len(),
            minute,
            &mut already,
        )
    };
    done(number).map(|()| already != 0)
}

/// Decodes the table from the answers of the hosts heard.
pub fn decode(
    (job, points): (&[u32; JOB_WORDS], &[u32]),
    heard: u64,
    store: &[u32],
    table: &mut [u32],
) -> Result<(), u32> {
    // Each pointer comes with the length of its slice.
    done(unsafe {
        mukerihe_decode(
            job.as_ptr(),
            job.len(),
            points.as_ptr(),
            points.len(),
            heard,
            store.as_ptr(),
            store.len(),
            table.as_mut_ptr(),
            table.len(),
        )
    })
}

/// Multiplies a, rows by inner, by b, inner by columns.
pub fn multiply(
    modulus: u32,
    [rows, inner, columns]: [u32; 3],
    a: &[u32],
    b: &[u32],
    out: &mut [u32],
) -> Result<(), u32> {
    // Each pointer comes with the length of its slice.
    done(unsafe {
        mukerihe_multiply(
            modulus,
            rows,
            inner,
            columns,
            a.as_ptr(),
            a.len(),
            b.as_ptr(),
            b.len(),
            out.as_mut_ptr(),
            out.len(),
        )
    })
}

/// The signed reading of an element.
pub fn signed(modulus: u32, element: u32) -> Result<i64, u32> {
    let mut value = 0;
    // The pointer is that of a number of ours.
    done(unsafe { mukerihe_signed(modulus, element, &mut value) }).map(|()| value)
}

/// The element whose signed reading is a value.
pub fn element(modulus: u32, value: i64) -> Result<u32, u32> {
    let mut element = 0;
    // The pointer is that of a number of ours.
    done(unsafe { mukerihe_element(modulus, value, &mut element) }).map(|()| element)
}

/// The page of a table of t rows and r columns.
pub fn page(modulus: u32, t: u32, r: u32, table: &[u32]) -> Result<Vec<u8>, u32> {
    // A call on two numbers.
    let mut out = vec![0; unsafe { mukerihe_page_length(t, r) }];
    // Each pointer comes with the length of its slice.
    let number = unsafe {
        mukerihe_page(
            modulus,
            t,
            r,
            table.as_ptr(),
            table.len(),
            out.as_mut_ptr(),
            out.len(),
        )
    };
    done(number).map(|()| out)
}

/// A host's whole part: the answer's message.
pub fn answer(a: &[u8], b: &[u8]) -> Result<Vec<u8>, u32> {
    let mut out = vec![0; MOST_MESSAGE];
    let mut written = 0;
    // Each pointer comes with the length of its slice.
    let number = unsafe {
        mukerihe_answer(
            a.as_ptr(),
            a.len(),
            b.as_ptr(),
            b.len(),
            out.as_mut_ptr(),
            out.len(),
            &mut written,
        )
    };
    out.truncate(written);
    done(number).map(|()| out)
}

/// Fills the front of a buffer from the system's random source, by one call; how many bytes.
pub fn random(buffer: &mut [u8]) -> io::Result<usize> {
    // The pointer comes with the length of its slice.
    let count = unsafe { getrandom(buffer.as_mut_ptr().cast(), buffer.len(), 0) };
    usize::try_from(count).map_err(|_| io::Error::last_os_error())
}

/// A path as the system takes it.
fn c_path(path: &Path) -> io::Result<CString> {
    CString::new(path.as_os_str().as_bytes()).map_err(io::Error::from)
}

/// Renames a file or folder; one that has the new name already is not replaced.
pub fn rename(old: &Path, new: &Path) -> io::Result<()> {
    let (old, new) = (c_path(old)?, c_path(new)?);
    // Both texts end in a 0 byte and live until the call is over.
    let failed = unsafe {
        renameat2(
            AT_FDCWD,
            old.as_ptr(),
            AT_FDCWD,
            new.as_ptr(),
            RENAME_NOREPLACE,
        )
    };
    match failed {
        0 => Ok(()),
        _ => Err(io::Error::last_os_error()),
    }
}

/// Standard output was closed when the command began.
static OUTPUT_WAS_CLOSED: AtomicBool = AtomicBool::new(false);

/// Looks at standard output before Rust's own start, which puts /dev/null in place of a closed one;
/// and has a file that gets too large be a fault of its write.
extern "C" fn begin() {
    // A question about a descriptor: it changes nothing, and needs no third argument.
    let closed = unsafe { fcntl(1, F_GETFD) } == -1;
    OUTPUT_WAS_CLOSED.store(closed, Ordering::Relaxed);
    // No code of ours is to be called.
    unsafe { signal(SIGXFSZ, SIG_IGN) };
}

/// The C library calls what stands in this section before `main`.
#[used]
#[link_section = ".init_array"]
static BEGIN: extern "C" fn() = begin;

/// Standard output was closed when the command began: nothing can be told.
pub fn output_was_closed() -> bool {
    OUTPUT_WAS_CLOSED.load(Ordering::Relaxed)
}
