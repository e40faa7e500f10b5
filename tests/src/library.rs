// The five entries of the static library. What they are lent lies where a step beyond it shows: before a page that nobody may touch, or
// in a heap block of its own, which valgrind watches. A buffer has bytes around it that are to stay.

use std::ffi::c_void;
use std::ptr;

#[link(name = "sakonite", kind = "static")]
unsafe extern "C" {
    fn sakonite_check(file: *const u8, file_length: usize) -> u32;
    fn sakonite_verdict(file: *const u8, file_length: usize) -> u32;
    fn sakonite_advice(file: *const u8, file_length: usize, history: *const u8, history_length: usize) -> u32;
    fn sakonite_finished(
        file: *const u8,
        file_length: usize,
        history: *const u8,
        history_length: usize,
        buffer: *mut u8,
        buffer_length: usize,
    ) -> usize;
    fn sakonite_losing_reply(
        file: *const u8,
        file_length: usize,
        history: *const u8,
        history_length: usize,
        buffer: *mut u8,
        buffer_length: usize,
    ) -> usize;
}

// One of those two that write to a buffer.
type Writing = unsafe extern "C" fn(*const u8, usize, *const u8, usize, *mut u8, usize) -> usize;

unsafe extern "C" {
    fn mmap(at: *mut c_void, length: usize, protection: i32, flags: i32, file: i32, offset: i64) -> *mut c_void;
    fn mprotect(at: *mut c_void, length: usize, protection: i32) -> i32;
    fn munmap(at: *mut c_void, length: usize) -> i32;
}

const PAGE: usize = 4_096;

// As Linux on x86-64 numbers them.
const NO_ACCESS: i32 = 0;
const READ_AND_WRITE: i32 = 3;
const PRIVATE_AND_ANONYMOUS: i32 = 0x22;

// Bytes at the end of a mapping whose last page is closed.
pub struct Fenced {
    map: *mut c_void,
    size: usize,
    length: usize,
}

impl Fenced {
    fn new(bytes: &[u8]) -> Fenced {
        let size = bytes.len().div_ceil(PAGE) * PAGE + PAGE;
        unsafe {
            let map = mmap(ptr::null_mut(), size, READ_AND_WRITE, PRIVATE_AND_ANONYMOUS, -1, 0);
            assert!(map as isize != -1, "no memory");
            assert!(mprotect(map.add(size - PAGE), PAGE, NO_ACCESS) == 0, "the last page stays open");
            let fenced = Fenced { map, size, length: bytes.len() };
            ptr::copy_nonoverlapping(bytes.as_ptr(), fenced.start(), bytes.len());
            fenced
        }
    }

    fn start(&self) -> *mut u8 {
        unsafe { (self.map as *mut u8).add(self.size - PAGE - self.length) }
    }
}

impl Drop for Fenced {
    fn drop(&mut self) {
        unsafe { munmap(self.map, self.size) };
    }
}

// Bytes that are lent for reading.
pub enum Bytes {
    Heap(Box<[u8]>),
    Page(Fenced),
    // Length 0 and a null pointer.
    Null,
}

impl Bytes {
    pub fn heap(bytes: &[u8]) -> Bytes {
        Bytes::Heap(bytes.into())
    }

    pub fn page(bytes: &[u8]) -> Bytes {
        Bytes::Page(Fenced::new(bytes))
    }

    fn parts(&self) -> (*const u8, usize) {
        match self {
            Bytes::Heap(bytes) => (bytes.as_ptr(), bytes.len()),
            Bytes::Page(fenced) => (fenced.start(), fenced.length),
            Bytes::Null => (ptr::null(), 0),
        }
    }
}

pub fn check(file: &Bytes) -> u32 {
    let (file, file_length) = file.parts();
    unsafe { sakonite_check(file, file_length) }
}

pub fn verdict(file: &Bytes) -> u32 {
    let (file, file_length) = file.parts();
    unsafe { sakonite_verdict(file, file_length) }
}

pub fn advice(file: &Bytes, history: &Bytes) -> u32 {
    let ((file, file_length), (history, history_length)) = (file.parts(), history.parts());
    unsafe { sakonite_advice(file, file_length, history, history_length) }
}

// A buffer from some pointer on. No answer is as large as the largest number.
fn write_at(entry: Writing, file: &Bytes, history: &Bytes, buffer: *mut u8, length: usize) -> u32 {
    let ((file, file_length), (history, history_length)) = (file.parts(), history.parts());
    let answer = unsafe { entry(file, file_length, history, history_length, buffer, length) };
    answer.try_into().unwrap_or(u32::MAX)
}

// An entry's answer with this buffer lent, which is left as the entry leaves it; none if a byte around the buffer changed.
fn write_to(entry: Writing, file: &Bytes, history: &Bytes, buffer: &mut [u8]) -> Option<u32> {
    const AROUND: usize = 64;
    let around: Vec<u8> = (0..AROUND as u8).map(|i| 0xa5 ^ i).collect();
    let mut lent = [&around, &*buffer, &around].concat().into_boxed_slice();
    let end = AROUND + buffer.len();
    let answer = write_at(entry, file, history, lent[AROUND..].as_mut_ptr(), buffer.len());
    buffer.copy_from_slice(&lent[AROUND..end]);
    (lent[..AROUND] == around && lent[end..] == around).then_some(answer)
}

pub fn finished(file: &Bytes, history: &Bytes, buffer: &mut [u8]) -> Option<u32> {
    write_to(sakonite_finished, file, history, buffer)
}

pub fn losing(file: &Bytes, history: &Bytes, buffer: &mut [u8]) -> Option<u32> {
    write_to(sakonite_losing_reply, file, history, buffer)
}

// The same without any buffer.
pub fn finished_in_nothing(file: &Bytes, history: &Bytes) -> u32 {
    write_at(sakonite_finished, file, history, ptr::null_mut(), 0)
}

pub fn losing_in_nothing(file: &Bytes, history: &Bytes) -> u32 {
    write_at(sakonite_losing_reply, file, history, ptr::null_mut(), 0)
}
