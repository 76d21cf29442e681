//! The stack that the library's calls take: at most 32 KB with the benchmarks'
//! small table, 256 KB with any of their tables, the largest that there can be
//! among them. Each call runs on a thread whose stack was filled with one byte
//! beforehand; the deepest byte that is another one afterwards tells how far it
//! went. What a thread needs for itself is taken off. For 64-bit Linux.

#[allow(dead_code)]
#[path = "../benches/common/mod.rs"]
mod common;

use common::largest;
use common::shapes::{others, sizes, Shape};
use compare::builder::{Cross, Kind, Select};
use compare::{library, register, table};
use std::ffi::{c_int, c_void};
use std::hint::black_box;
use std::ptr::null_mut;

const STACK: usize = 1024 * 1024;
const PAINT: u8 = 0xA5;

/// Room for a `pthread_attr_t`, which has 56 bytes.
#[repr(C, align(16))]
struct Attributes([u8; 64]);

extern "C" {
    fn pthread_attr_init(attributes: *mut Attributes) -> c_int;
    fn pthread_attr_setstack(attributes: *mut Attributes, stack: *mut u8, size: usize) -> c_int;
    fn pthread_create(
        thread: *mut usize,
        attributes: *const Attributes,
        start: extern "C" fn(*mut c_void) -> *mut c_void,
        argument: *mut c_void,
    ) -> c_int;
    fn pthread_join(thread: usize, result: *mut *mut c_void) -> c_int;
}

#[repr(C, align(4096))]
struct Stack([u8; STACK]);

type Call<'a> = &'a mut dyn FnMut();

extern "C" fn run(call: *mut c_void) -> *mut c_void {
    // `depth` keeps the call until the thread has ended.
    let call = unsafe { &mut *call.cast::<Call>() };
    call();
    null_mut()
}

/// The largest table, but with cross bins of as many tokens as there can be, joined
/// from the left or from the right.
fn deep(name: &str, join: fn(Select, Select) -> Select) -> Shape {
    let mut table = largest();
    table.crosses.clear();
    for c in 0..8u8 {
        let mut cross = Cross::new(&[c * 2, c * 2 + 1]);
        for _ in 0..4 {
            let leaf = || Select::meets(1, 0, 99_999);
            let select = (1..16).fold(leaf().negated(), |all, _| join(all, leaf()));
            cross = cross.bin(Kind::Cover, select);
        }
        table = table.cross(cross);
    }
    Shape {
        name: name.to_string(),
        table,
        readings: vec![1, 2, 17],
    }
}

/// How many bytes from its upper end the thread of the call has written.
fn depth(stack: &mut Stack, mut call: Call) -> usize {
    stack.0.fill(PAINT);
    let mut attributes = Attributes([0; 64]);
    let mut thread = 0;
    let argument: *mut Call = &mut call;
    unsafe {
        assert_eq!(pthread_attr_init(&mut attributes), 0);
        let base = stack.0.as_mut_ptr();
        assert_eq!(pthread_attr_setstack(&mut attributes, base, STACK), 0);
        let started = pthread_create(&mut thread, &attributes, run, argument.cast());
        assert_eq!(started, 0);
        assert_eq!(pthread_join(thread, null_mut()), 0);
    }
    let stack = black_box(&stack.0);
    STACK - stack.iter().take_while(|&&byte| byte == PAINT).count()
}

/// Bytes of stack of each call with the shape's table.
fn measured(stack: &mut Stack, shape: &Shape) -> Vec<(&'static str, usize)> {
    let bytes = shape.table.bytes();
    let measure = table::measure(&bytes);
    assert_eq!(measure.number, 0, "{}", shape.name);
    let mut words = vec![0; measure.words as usize];
    register::reset(&bytes, &mut words);
    let samples = shape.samples();
    let batch = samples.concat();
    let mut reports = vec![0; measure.illegal_places as usize * samples.len()];

    let thread = depth(stack, &mut || {});
    let mut depths = Vec::new();
    let mut of = |name, call: Call| depths.push((name, depth(stack, call) - thread));
    of("measure", &mut || assert_eq!(library::measure(&bytes), measure));
    of("stop", &mut || assert_eq!(library::stop(&bytes, &mut words), 0));
    of("start", &mut || assert_eq!(library::start(&bytes, &mut words), 0));
    of("sample", &mut || {
        let number = library::sample(&bytes, &mut words, &samples[0], &mut reports);
        assert_eq!(number, 0);
    });
    of("samples", &mut || {
        let taken = library::samples(&bytes, &mut words, &batch, &mut reports);
        assert_eq!(taken, (0, samples.len()));
    });
    of("place count", &mut || assert_eq!(library::place_count(&bytes, &words, 0).0, 0));
    of("unknown count", &mut || assert_eq!(library::unknown_count(&bytes, &words, 0).0, 0));
    of("item figure", &mut || assert_eq!(library::item_figure(&bytes, &words, 0).0, 0));
    of("group figure", &mut || assert_eq!(library::group_figure(&bytes, &words).0, 0));
    of("reset", &mut || assert_eq!(library::reset(&bytes, &mut words), 0));
    depths
}

#[test]
fn stack_of_calls() {
    let mut stack = Box::new(Stack([0; STACK]));
    let from_left = deep("expressions, left", |all, leaf| all.and(leaf));
    let from_right = deep("expressions, right", |all, leaf| leaf.and(all));
    for shape in sizes().iter().chain(&others()).chain([&from_left, &from_right]) {
        let kilobytes = if shape.name == "small" { 32 } else { 256 };
        for (call, bytes) in measured(&mut stack, shape) {
            let name = &shape.name;
            println!("{name:<24} {call:<14} {:>6.1} KB", bytes as f64 / 1024.0);
            assert!(bytes <= kilobytes * 1024, "{name}, {call}: {bytes} bytes");
        }
    }
}
