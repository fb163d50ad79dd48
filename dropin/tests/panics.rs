// panics: four threads panic and catch it, 2,000 times each; each payload and destructor is counted.
use std::cell::Cell;
use std::panic::{catch_unwind, resume_unwind};

struct Counted<'a>(&'a Cell<u32>);

impl Drop for Counted<'_> {
    fn drop(&mut self) {
        self.0.set(self.0.get() + 1);
    }
}

#[inline(never)]
fn go_down(depth: u32, value: u32, count: &Cell<u32>) -> u32 {
    let _here = Counted(count);
    if depth == 1 {
        resume_unwind(Box::new(value));
    }
    go_down(depth - 1, value, count) + 1
}

fn panic_often() {
    for value in 0..2000 {
        let count = Cell::new(0);
        let caught = catch_unwind(std::panic::AssertUnwindSafe(|| go_down(10, value, &count)));
        assert_eq!(caught.unwrap_err().downcast_ref(), Some(&value));
        assert_eq!(count.get(), 10);
    }
}

fn main() {
    let threads: Vec<_> = (0..4).map(|_| std::thread::spawn(panic_often)).collect();
    threads.into_iter().for_each(|thread| thread.join().unwrap());
    println!("8000 panics are right");
}
