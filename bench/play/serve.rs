//! Starts the program that it is loaded before once for each byte that comes from the file ASKS, in a process of its own each time, and
//! writes how each ended to the file TELLS. The program is loaded once, so a start takes a fork. It ends where ASKS does.
#![no_std]

use core::ffi::{c_int, c_void};
use core::panic::PanicInfo;

unsafe extern "C" {
    fn fork() -> c_int;
    fn waitpid(process: c_int, status: *mut c_int, options: c_int) -> c_int;
    fn read(file: c_int, bytes: *mut c_void, count: usize) -> isize;
    fn write(file: c_int, bytes: *const c_void, count: usize) -> isize;
    fn close(file: c_int) -> c_int;
    fn _exit(status: c_int) -> !;
}

const ASKS: c_int = 100;
const TELLS: c_int = 101;

#[panic_handler]
fn stop(_: &PanicInfo<'_>) -> ! {
    loop {}
}

/// Runs before the program's own `main`, to which it returns in each process that it starts.
extern "C" fn serve() {
    let mut asked = 0u8;
    while unsafe { read(ASKS, (&raw mut asked).cast(), 1) } == 1 {
        let mut status: c_int = -1;
        match unsafe { fork() } {
            -1 => {}
            0 => {
                unsafe { close(ASKS) };
                unsafe { close(TELLS) };
                return;
            }
            process => {
                unsafe { waitpid(process, &raw mut status, 0) };
            }
        }
        unsafe { write(TELLS, (&raw const status).cast(), size_of::<c_int>()) };
    }
    unsafe { _exit(0) }
}

#[used]
#[unsafe(link_section = ".init_array")]
static BEFORE_MAIN: extern "C" fn() = serve;
