//! A library that uses `vte` without `std`, and has no allocator. It isn't built if `vte`, or a
//! crate that it needs, brings std, which has a panic handler of its own. As a `staticlib`, without
//! `ansi`, it isn't built either if `vte` needs an allocator.
#![no_std]

struct Count(u32);

impl vte::Perform for Count {
    fn print(&mut self, _: char) {
        self.0 += 1;
    }
}

#[no_mangle]
pub extern "C" fn count_printed() -> u32 {
    let mut count = Count(0);
    vte::Parser::<16>::new_with_size().advance(&mut count, b"a\x1b[mb");
    count.0
}

#[panic_handler]
fn panic(_: &core::panic::PanicInfo<'_>) -> ! {
    loop {}
}
