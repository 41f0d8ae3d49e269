//! Memory between two pages that may not be touched, and calls on a stack of a given size.

use crate::library::{Call, JoinCall, RootCall, Run, RunCall};
use crate::second::Shift;
use std::ffi::c_void;

const PAGE: usize = 4096;

extern "C" {
    fn mmap(
        at: *mut c_void,
        length: usize,
        access: i32,
        flags: i32,
        fd: i32,
        from: i64,
    ) -> *mut c_void;
    fn mprotect(at: *mut c_void, length: usize, access: i32) -> i32;
}

/// Whole pages that may be read and written, a page before and a page after them that may not.
/// They stay mapped to the end of the process.
pub struct Area {
    first: *mut u8,
    size: usize,
}

impl Area {
    /// At least `size` bytes.
    pub fn new(size: usize) -> Area {
        const NONE: i32 = 0;
        const READ_AND_WRITE: i32 = 3;
        const PRIVATE_AND_ANONYMOUS: i32 = 0x22;
        let size = size.div_ceil(PAGE) * PAGE;
        // Fresh pages of our own; those in the middle are opened.
        let first = unsafe {
            let whole = mmap(
                std::ptr::null_mut(),
                size + 2 * PAGE,
                NONE,
                PRIVATE_AND_ANONYMOUS,
                -1,
                0,
            );
            assert!(whole as isize != -1, "no memory");
            let first = whole.cast::<u8>().add(PAGE);
            assert_eq!(mprotect(first.cast(), size, READ_AND_WRITE), 0, "no memory");
            first
        };
        Area { first, size }
    }

    pub fn size(&self) -> usize {
        self.size
    }

    /// All bytes that may be touched.
    pub fn bytes(&mut self) -> &mut [u8] {
        // The pages are ours, mapped and never unmapped.
        unsafe { std::slice::from_raw_parts_mut(self.first, self.size) }
    }

    /// The offset of `length` bytes that end at the upper guard page or begin at the lower one.
    pub fn place(&self, length: usize, at_end: bool) -> usize {
        if at_end {
            self.size - length
        } else {
            0
        }
    }

    pub fn at(&self, offset: usize) -> *mut u8 {
        // Offsets are at most the size: a pointer within the mapping or to the guard page.
        unsafe { self.first.add(offset) }
    }
}

/// The right file of a join, with the offset and the shift.
#[derive(Clone, Copy)]
pub struct Right {
    pub file: *const u8,
    pub length: usize,
    pub shift: Shift,
}

/// A C function, with the record that it takes, if it does; or one that takes a number instead of a file and writes
/// to the buffer, whose length it is not told; or one that takes a second file.
#[derive(Clone, Copy)]
pub enum Callee {
    Plain(Call),
    InRun(RunCall, *mut Run),
    Root(RootCall, u32),
    Join(JoinCall, Right),
}

/// Where a function stands, and its parameters: those in the registers of whole numbers and of floats, and those on the
/// stack, if there are any. A function does not look at the registers of parameters that it does not have.
#[cfg(target_arch = "x86_64")]
struct Parameters {
    function: *const c_void,
    whole: [u64; 6],
    floats: [f32; 2],
    stack: Option<[u64; 2]>,
}

impl Callee {
    /// # Safety
    /// As the function's own.
    pub unsafe fn call(
        self,
        file: *const u8,
        file_len: usize,
        buffer: *mut u8,
        buffer_len: usize,
    ) -> u64 {
        match self {
            Callee::Plain(f) => f(file, file_len, buffer, buffer_len),
            Callee::InRun(f, run) => f(file, file_len, buffer, buffer_len, run),
            Callee::Root(f, bits) => u64::from(f(bits, buffer.cast()) as u32),
            Callee::Join(f, right) => {
                let Shift { du, dv, dx, dy } = right.shift;
                let (other, length) = (right.file, right.length);
                f(
                    file, file_len, other, length, du, dv, dx, dy, buffer, buffer_len,
                )
            }
        }
    }

    #[cfg(target_arch = "x86_64")]
    fn parameters(
        self,
        file: *const u8,
        file_len: usize,
        buffer: *mut u8,
        buffer_len: usize,
    ) -> Parameters {
        let [file, length, buffer, room] = [
            file as u64,
            file_len as u64,
            buffer as u64,
            buffer_len as u64,
        ];
        let plain = |function, whole: [u64; 5]| Parameters {
            function,
            whole: [whole[0], whole[1], whole[2], whole[3], whole[4], 0],
            floats: [0.0; 2],
            stack: None,
        };
        match self {
            Callee::Plain(f) => plain(f as *const c_void, [file, length, buffer, room, 0]),
            Callee::InRun(f, run) => {
                plain(f as *const c_void, [file, length, buffer, room, run as u64])
            }
            Callee::Root(f, bits) => plain(f as *const c_void, [bits.into(), buffer, 0, 0, 0]),
            Callee::Join(f, right) => {
                let Shift { du, dv, dx, dy } = right.shift;
                let [du, dv] = [du, dv].map(|offset| u64::from(offset as u32));
                Parameters {
                    function: f as *const c_void,
                    whole: [file, length, right.file as u64, right.length as u64, du, dv],
                    floats: [dx, dy],
                    stack: Some([buffer, room]),
                }
            }
        }
    }
}

/// A painted stack with a guard page below it.
pub struct Stack {
    area: Area,
    /// Bytes from the bottom that no call has changed yet.
    clean: usize,
}

const PAINT: u64 = 0xA55A_C33C_9669_F00F;

impl Stack {
    pub fn new(size: usize) -> Stack {
        let mut area = Area::new(size);
        for word in area.bytes().chunks_mut(8) {
            word.copy_from_slice(&PAINT.to_le_bytes());
        }
        let clean = area.size();
        Stack { area, clean }
    }

    /// Calls the function on this stack.
    ///
    /// # Safety
    /// As the function's own; the stack must hold what it needs, or the process faults.
    #[cfg(target_arch = "x86_64")]
    pub unsafe fn call(
        &mut self,
        callee: Callee,
        file: *const u8,
        file_len: usize,
        buffer: *mut u8,
        buffer_len: usize,
    ) -> u64 {
        let given = callee.parameters(file, file_len, buffer, buffer_len);
        let top = self.with(given.stack);
        let [first, second, third, fourth, fifth, sixth] = given.whole;
        let [float, other_float] = given.floats;
        let returned: u64;
        // The stack pointer is kept in r12, which a C function hands back as it found it.
        std::arch::asm!(
            "mov r12, rsp",
            "mov rsp, {top}",
            "call {f}",
            "mov rsp, r12",
            top = in(reg) top,
            f = in(reg) given.function,
            in("rdi") first,
            in("rsi") second,
            in("rdx") third,
            in("rcx") fourth,
            in("r8") fifth,
            in("r9") sixth,
            in("xmm0") float,
            in("xmm1") other_float,
            lateout("rax") returned,
            out("r12") _,
            clobber_abi("C"),
        );
        self.note();
        match callee {
            // A returned number of 32 bits says nothing of the others.
            Callee::Root(..) => returned & 0xFFFF_FFFF,
            _ => returned,
        }
    }

    #[cfg(not(target_arch = "x86_64"))]
    pub unsafe fn call(
        &mut self,
        callee: Callee,
        file: *const u8,
        file_len: usize,
        buffer: *mut u8,
        buffer_len: usize,
    ) -> u64 {
        callee.call(file, file_len, buffer, buffer_len)
    }

    /// The top of the stack with some parameters on it, which keep its place a multiple of 16.
    #[cfg(target_arch = "x86_64")]
    unsafe fn with(&self, parameters: Option<[u64; 2]>) -> *mut u8 {
        let top = self.area.at(self.area.size());
        let Some(words) = parameters else { return top };
        // The area is ours, and longer than two words.
        let top = top.sub(size_of_val(&words));
        top.cast::<[u64; 2]>().write(words);
        top
    }

    /// Looks how far up the paint still stands.
    #[cfg(target_arch = "x86_64")]
    fn note(&mut self) {
        let clean = self.clean;
        let words = self.area.bytes()[..clean].chunks_exact(8);
        let intact = words
            .take_while(|w| u64::from_le_bytes((*w).try_into().unwrap()) == PAINT)
            .count();
        self.clean = 8 * intact;
    }

    /// The most bytes that a call has used, its return address and its parameters there included.
    pub fn deepest(&self) -> usize {
        self.area.size() - self.clean
    }
}
