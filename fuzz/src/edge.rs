//! Memory that ends where a page begins that may not be touched, so that reading past its end stops the run.

use std::ffi::c_void;

extern "C" {
    fn mmap(
        at: *mut c_void,
        size: usize,
        rights: i32,
        flags: i32,
        file: i32,
        from: i64,
    ) -> *mut c_void;
    fn mprotect(at: *mut c_void, size: usize, rights: i32) -> i32;
}

const PAGE: usize = 4_096;
const NO_RIGHTS: i32 = 0;
const READ_AND_WRITE: i32 = 3;
const PRIVATE_WITHOUT_FILE: i32 = 0x22;

/// Elements for which all bytes are good.
pub trait Plain: Copy + 'static {}
impl Plain for u8 {}
impl Plain for u64 {}

pub struct Edge<T: 'static> {
    memory: &'static mut [T],
}

impl<T: Plain> Edge<T> {
    /// So many pages before the edge.
    pub fn new(pages: usize) -> Edge<T> {
        let size = pages * PAGE;
        let nowhere = std::ptr::null_mut();
        // SAFETY: the mapping is new and never given back, begins at a page, and all bytes make good elements.
        let memory = unsafe {
            let first = mmap(
                nowhere,
                size + PAGE,
                READ_AND_WRITE,
                PRIVATE_WITHOUT_FILE,
                -1,
                0,
            );
            assert!(first as isize != -1, "no memory");
            assert!(mprotect(first.add(size), PAGE, NO_RIGHTS) == 0, "no edge");
            std::slice::from_raw_parts_mut(first.cast(), size / size_of::<T>())
        };
        Edge { memory }
    }

    /// These elements, the last of them at the edge.
    pub fn put(&mut self, elements: &[T]) -> &[T] {
        let start = self.memory.len() - elements.len();
        let lent = &mut self.memory[start..];
        lent.copy_from_slice(elements);
        lent
    }
}
