//! Places that are drawn anew, for memory, on the stack and for code. Each changes how long a call takes by some hundredths, so one that
//! is held for a whole run, or that a build decides, would have a say in every ratio.
use crate::rng::Rng;
use std::hint::black_box;
use std::ops::{Deref, DerefMut, Range};

/// Bytes from one place to the next.
const STEP: usize = 16;
/// Bytes over which memory is placed, and code.
const MEMORY: usize = 1 << 16;
const CODE: usize = 1 << 12;
/// Frames by which the stack grows, at the most.
const FRAMES: u64 = 32;
/// Copies of the code.
const COPIES: usize = 64;

/// What draws them.
pub struct Places {
    rng: Rng,
    image: Range<usize>,
    copies: Vec<usize>,
}

/// A copy of some content at a place of its own.
pub struct Placed<T> {
    memory: Vec<T>,
    start: usize,
}

impl<T> Deref for Placed<T> {
    type Target = [T];

    fn deref(&self) -> &[T] {
        &self.memory[self.start..]
    }
}

impl<T> DerefMut for Placed<T> {
    fn deref_mut(&mut self) -> &mut [T] {
        &mut self.memory[self.start..]
    }
}

extern "C" {
    /// The first byte of the program in memory and the one behind its last, set by the linker.
    static __executable_start: u8;
    static _end: u8;
    fn mmap(address: *mut u8, length: usize, protection: i32, flags: i32, file: i32, offset: i64) -> *mut u8;
}

/// A copy of the program, `shift` bytes into memory that may be read, written and run and is never given back: where it starts. Its code
/// finds its functions and constants by their distance, and what pointers it has into the program point into the copy.
fn copied(image: &Range<usize>, shift: usize) -> usize {
    const READ_WRITE_RUN: i32 = 7;
    const PRIVATE_ANONYMOUS: i32 = 0x22;
    // Memory of its own is written alone, and the program, all of which is readable, is read.
    unsafe {
        let memory = mmap(std::ptr::null_mut(), shift + image.len(), READ_WRITE_RUN, PRIVATE_ANONYMOUS, -1, 0);
        assert!(memory as isize != -1, "this machine runs no code that a program has written");
        let start = memory.add(shift);
        start.copy_from_nonoverlapping(image.start as *const u8, image.len());
        for word in std::slice::from_raw_parts_mut(start.cast::<usize>(), image.len() / size_of::<usize>()) {
            if image.contains(word) {
                *word = *word - image.start + start as usize;
            }
        }
        start as usize
    }
}

/// Runs some frames further down the stack, each of so many words and what the compiler adds.
#[inline(never)]
fn deeper<const WORDS: usize>(frames: u64, run: &mut dyn FnMut()) {
    let frame = [frames; WORDS];
    black_box(&frame);
    if frames == 0 {
        run();
    } else {
        deeper::<WORDS>(frames - 1, run);
    }
    black_box(&frame);
}

impl Places {
    pub fn new(seed: u64) -> Self {
        let mut rng = Rng::new(seed);
        let image = &raw const __executable_start as usize..&raw const _end as usize;
        let copies = (0..COPIES).map(|_| copied(&image, STEP * rng.below((CODE / STEP) as u64) as usize)).collect();
        Places { rng, image, copies }
    }

    pub fn memory<T: Copy + Default>(&mut self, content: &[T]) -> Placed<T> {
        const { assert!(STEP % size_of::<T>() == 0) };
        let start = self.rng.below((MEMORY / STEP) as u64) as usize * (STEP / size_of::<T>());
        let mut memory = vec![T::default(); start + content.len()];
        memory[start..].copy_from_slice(content);
        Placed { memory, start }
    }

    /// Runs behind frames of two lengths, a step apart, so that it may begin at every step of a page.
    pub fn stack(&mut self, run: &mut dyn FnMut()) {
        let [longer, shorter] = [(); 2].map(|_| self.rng.below(FRAMES));
        deeper::<132>(longer, &mut || deeper::<130>(shorter, run));
    }

    /// The same call, run by a copy of its code. It must not panic, and has a copy of every static variable.
    pub fn code<'a>(&mut self, call: &'a mut dyn FnMut()) -> &'a mut dyn FnMut() {
        // Such a reference is the closure's address and that of its table of functions, and the copy has that table too.
        unsafe {
            let [closure, table]: [usize; 2] = std::mem::transmute(call);
            assert!(self.image.contains(&table));
            std::mem::transmute([closure, table - self.image.start + self.rng.pick(&self.copies)])
        }
    }
}
