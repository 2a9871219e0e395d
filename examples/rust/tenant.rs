//! What a tenant in Rust stands on: the services of the host, a global allocator over its heap,
//! start, output and panics.
//!
//! The target is `aarch64-unknown-none-softfloat`. A program says `tenant::start!(main)`, where
//! `main` returns the exit status. There is one thread, so the compiler is asked to make plain
//! accesses of atomic ones (build.sh).
#![no_std]
#![feature(alloc_error_handler)]

extern crate alloc;

use alloc::vec::Vec;
use core::alloc::{GlobalAlloc, Layout};
use core::arch::{asm, global_asm};
use core::fmt;

/// The exit status of a tenant that panics, as of a Rust program elsewhere.
const PANICKED: u8 = 101;
/// The alignment of every chunk of the heap.
const GRANULE: usize = 16;

/// A service: its number in x8, two arguments, the result in x0.
fn call(number: usize, first: usize, second: usize) -> usize {
    let result;
    unsafe {
        asm!(
            "svc #0",
            inlateout("x0") first => result,
            in("x1") second,
            in("x8") number,
            options(nostack)
        );
    }
    result
}

/// Ends the tenant.
pub fn exit(status: u8) -> ! {
    loop {
        call(0, usize::from(status), 0);
    }
}

/// Appends bytes to the output, as many as there is room for, and returns their number.
pub fn write(bytes: &[u8]) -> usize {
    call(1, bytes.as_ptr() as usize, bytes.len())
}

/// Reads the next bytes of the input into `bytes`, as many as are left, and returns their number.
pub fn read(bytes: &mut [u8]) -> usize {
    call(2, bytes.as_mut_ptr() as usize, bytes.len())
}

/// All that is left of the input.
pub fn read_all() -> Vec<u8> {
    let mut input = Vec::new();
    let mut piece = [0; 1024];
    loop {
        let count = read(&mut piece);
        if count == 0 {
            return input;
        }
        input.extend_from_slice(&piece[..count]);
    }
}

/// The heap of the host: services 3 to 7. A pointer has its chunk's tag in bits 59 to 56, which
/// Rust carries along.
struct Heap;

unsafe impl GlobalAlloc for Heap {
    unsafe fn alloc(&self, layout: Layout) -> *mut u8 {
        if layout.align() <= GRANULE {
            call(3, layout.size(), 0) as *mut u8
        } else {
            call(7, layout.align(), layout.size()) as *mut u8
        }
    }

    unsafe fn dealloc(&self, chunk: *mut u8, _: Layout) {
        call(4, chunk as usize, 0);
    }

    unsafe fn alloc_zeroed(&self, layout: Layout) -> *mut u8 {
        if layout.align() <= GRANULE {
            return call(5, 1, layout.size()) as *mut u8;
        }
        let chunk = self.alloc(layout);
        if !chunk.is_null() {
            chunk.write_bytes(0, layout.size());
        }
        chunk
    }

    unsafe fn realloc(&self, chunk: *mut u8, layout: Layout, size: usize) -> *mut u8 {
        if layout.align() <= GRANULE {
            return call(6, chunk as usize, size) as *mut u8;
        }
        let moved = self.alloc(Layout::from_size_align_unchecked(size, layout.align()));
        if !moved.is_null() {
            moved.copy_from_nonoverlapping(chunk, layout.size().min(size));
            self.dealloc(chunk, layout);
        }
        moved
    }
}

#[global_allocator]
static HEAP: Heap = Heap;

/// The output, for `write!`.
pub struct Output;

impl fmt::Write for Output {
    fn write_str(&mut self, text: &str) -> fmt::Result {
        if write(text.as_bytes()) == text.len() {
            Ok(())
        } else {
            Err(fmt::Error)
        }
    }
}

/// Writes a line of text to the output; what there is no room for is dropped.
#[macro_export]
macro_rules! println {
    ($($argument:tt)*) => {{
        use core::fmt::Write;
        let _ = writeln!($crate::Output, $($argument)*);
    }};
}

/// Names the function that runs as the tenant, and returns its exit status.
#[macro_export]
macro_rules! start {
    ($main:ident) => {
        #[no_mangle]
        fn tenant_main() -> u8 {
            $main()
        }
    };
}

extern "Rust" {
    fn tenant_main() -> u8;
}

// Registers are 0 at the start but for SP, the end of the stack.
global_asm!(".globl _start", "_start:", "bl tenant_begin", "brk #3");

#[no_mangle]
extern "C" fn tenant_begin() -> ! {
    exit(unsafe { tenant_main() })
}

#[panic_handler]
fn panic(info: &core::panic::PanicInfo) -> ! {
    println!("{}", info);
    exit(PANICKED)
}

#[alloc_error_handler]
fn out_of_memory(layout: Layout) -> ! {
    panic!("no memory for {} bytes", layout.size())
}
