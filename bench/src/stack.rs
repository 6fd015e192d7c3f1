//! `bench stack`: the stack that calls need, the most of each part over the families of `bench all`. A call is made by a thread whose
//! stack is memory of ours, filled with one byte: what is changed afterwards was used. What a thread needs for no call is taken off.
use crate::all::{families, Family, Side};
use std::ptr::null_mut;

const STACK: usize = 1 << 20;
const FILLING: u8 = 0xA5;

/// pthread_attr_t of x86-64 Linux.
#[repr(C, align(16))]
struct Attributes([u8; 64]);

type Call<'c> = &'c mut dyn FnMut();

extern "C" {
    fn pthread_attr_init(attributes: *mut Attributes) -> i32;
    fn pthread_attr_setstack(attributes: *mut Attributes, stack: *mut u8, bytes: usize) -> i32;
    fn pthread_create(
        thread: *mut usize,
        attributes: *const Attributes,
        start: extern "C" fn(*mut u8) -> *mut u8,
        call: *mut u8,
    ) -> i32;
    fn pthread_join(thread: usize, answer: *mut *mut u8) -> i32;
}

/// What it is handed is a `Call`.
extern "C" fn start(call: *mut u8) -> *mut u8 {
    unsafe { (*call.cast::<Call>())() };
    null_mut()
}

/// Bytes of a stack that a thread changes which makes the call.
fn changed(mut call: Call) -> usize {
    let mut stack = vec![FILLING; STACK + 64];
    let place = stack.as_ptr().align_offset(64);
    let mut attributes = Attributes([0; 64]);
    let mut thread = 0;
    // The thread has ended before its stack, attributes and call are looked at again.
    unsafe {
        assert_eq!(pthread_attr_init(&mut attributes), 0);
        assert_eq!(pthread_attr_setstack(&mut attributes, stack.as_mut_ptr().add(place), STACK), 0);
        assert_eq!(pthread_create(&mut thread, &attributes, start, (&raw mut call).cast()), 0);
        assert_eq!(pthread_join(thread, &mut null_mut()), 0);
    }
    let stack = std::hint::black_box(&stack[place..place + STACK]);
    STACK - stack.iter().position(|&byte| byte != FILLING).unwrap_or(STACK)
}

pub fn main() {
    let none = changed(&mut || ());
    println!("bytes of stack: the most that a call of each part needs, and on which family");
    println!("{:<8} {:>6} {:<27} {:>6} {:<27}", "part", "plain", "", "ours", "");
    let mut rows: Vec<(&str, [(usize, String); 2])> = Vec::new();
    for Family { part, name, mut run, .. } in families() {
        let used = [Side::Plain, Side::Ours].map(|side| {
            let mut call = || {
                run(side, 1);
            };
            changed(&mut call) - none
        });
        if rows.last().is_none_or(|row| row.0 != part) {
            rows.push((part, Default::default()));
        }
        let (_, most) = rows.last_mut().expect("a row");
        for (most, used) in most.iter_mut().zip(used) {
            if used > most.0 {
                *most = (used, name.clone());
            }
        }
    }
    for (part, [plain, ours]) in rows {
        println!("{part:<8} {:>6} {:<27} {:>6} {:<27}", plain.0, plain.1, ours.0, ours.1);
    }
}
