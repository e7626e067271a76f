// Rust without its library of the system, over the C library that it is linked with.
#![no_std]
#![no_main]
use core::ffi::{c_char, c_int};

extern "C" {
    fn printf(form: *const c_char, ...) -> c_int;
    fn getchar() -> c_int;
    fn abort() -> !;
}

#[panic_handler]
fn panicked(_: &core::panic::PanicInfo) -> ! {
    unsafe { abort() }
}

fn change(x: u32, letter: u8) -> u32 {
    match letter % 11 {
        0 => x.wrapping_add(7),
        1 => x.rotate_left(3),
        2 => x ^ 0x9E37_79B9,
        3 => x.wrapping_mul(31),
        4 => !x,
        5 => x.swap_bytes(),
        6 => x.count_ones() | x << 8,
        7 => x / 3,
        8 => x.leading_zeros().wrapping_add(x),
        9 => x.wrapping_sub(u32::from(letter)),
        _ => x.reverse_bits(),
    }
}

#[no_mangle]
pub extern "C" fn main() -> c_int {
    let (mut x, mut lines) = (1u32, 0);
    loop {
        let letter = unsafe { getchar() };
        let Ok(byte) = u8::try_from(letter) else { break };
        x = change(x, byte);
        if byte == b'\n' {
            lines += 1;
            unsafe { printf(c"%d %08x\n".as_ptr(), lines, x) };
        }
    }
    (x % 100) as c_int
}
