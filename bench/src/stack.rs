//! How much stack a call takes, measured: it is made on a thread whose stack is
//! memory of our own, painted before; the lowest byte that is no longer paint tells
//! how far down the call went. The threads are POSIX's, since std's do not take
//! memory for their stacks.

use crate::deepest;
use crate::growth;
use crate::times::{grouped, json_of, ours_reads};
use crate::workloads;
use std::alloc::{alloc, dealloc, Layout};
use std::ffi::c_void;
use std::hint::black_box;
use thymebarrel::{CARD_BYTES, JSON_BYTES};
use thymebarrel_baseline::generate::{self, Rng};

/// glibc's pthread_attr_t has 56 bytes on x86-64: more than enough here.
#[repr(C, align(16))]
struct Attributes([u8; 256]);

extern "C" {
    fn pthread_attr_init(attributes: *mut Attributes) -> i32;
    fn pthread_attr_setstack(attributes: *mut Attributes, stack: *mut c_void, bytes: usize) -> i32;
    fn pthread_create(thread: *mut usize, attributes: *const Attributes, start: extern "C" fn(*mut c_void) -> *mut c_void, job: *mut c_void) -> i32;
    fn pthread_join(thread: usize, result: *mut *mut c_void) -> i32;
}

const STACK: usize = 1 << 20;
const PAINT: u8 = 0xa5;

/// The call, and where the stack stood when it was made.
struct Job<'a> {
    call: &'a mut (dyn FnMut() + Send),
    from: usize,
}

extern "C" fn start(job: *mut c_void) -> *mut c_void {
    // the job of `taken_by`, which waits for this thread and touches nothing meanwhile
    let job = unsafe { &mut *job.cast::<Job>() };
    let here = 0u8;
    job.from = &raw const here as usize;
    (job.call)();
    std::ptr::null_mut()
}

/// Bytes of stack below the caller's frame that the call wrote to.
fn taken_by(call: &mut (dyn FnMut() + Send)) -> usize {
    let layout = Layout::from_size_align(STACK, 4096).expect("a power of two");
    let mut job = Job { call, from: 0 };
    // The stack is ours from `alloc` to `dealloc`, and the thread that runs on it has
    // ended before its bytes are read; attributes, thread and job are our own.
    unsafe {
        let stack = alloc(layout);
        assert!(!stack.is_null());
        stack.write_bytes(PAINT, STACK);
        let (mut attributes, mut thread) = (Attributes([0; 256]), 0);
        assert_eq!(pthread_attr_init(&mut attributes), 0);
        assert_eq!(pthread_attr_setstack(&mut attributes, stack.cast(), STACK), 0);
        assert_eq!(pthread_create(&mut thread, &attributes, start, (&raw mut job).cast()), 0);
        assert_eq!(pthread_join(thread, std::ptr::null_mut()), 0);
        let painted = std::slice::from_raw_parts(stack, STACK);
        let lowest = stack as usize + painted.iter().take_while(|&&byte| byte == PAINT).count();
        dealloc(stack, layout);
        job.from.saturating_sub(lowest)
    }
}

fn card_to_json(card: &[u8]) -> usize {
    let mut out = vec![0; JSON_BYTES];
    taken_by(&mut || {
        let _ = black_box(thymebarrel::card_to_json_into(b"reg", 1, card, &mut out));
    })
}

fn json_to_card(json: &[u8]) -> usize {
    let mut out = vec![0; CARD_BYTES];
    taken_by(&mut || {
        let _ = black_box(thymebarrel::json_to_card_into(json, &mut out));
    })
}

fn look_up(json: &[u8]) -> usize {
    taken_by(&mut || {
        black_box(thymebarrel::member(json, b"uid"));
    })
}

fn stream(cards: &[u8]) -> usize {
    let (mut buffer, mut out) = (vec![0; CARD_BYTES], vec![0; JSON_BYTES]);
    taken_by(&mut || {
        black_box(ours_reads(cards, 1_000, &mut buffer, &mut out));
    })
}

/// Of so many generated inputs the one that takes most.
const GENERATED: usize = 1_000;

fn greatest(make: fn(&mut Rng) -> Vec<u8>, call: fn(&[u8]) -> usize) -> usize {
    let mut rng = Rng::new(1);
    (0..GENERATED).map(|_| call(&make(&mut rng))).max().unwrap_or_default()
}

pub fn print() {
    let nothing = taken_by(&mut || {});
    println!("bytes of stack; a thread that makes no call is found with {nothing}\n");
    print_cards();
    println!();
    print_texts();
}

fn print_cards() {
    let deep = workloads::deep_card();
    assert!(thymebarrel::card_to_json(b"reg", 1, &deep).is_ok());
    let cards = [
        ("refused at the first line", b"no card\n".to_vec()),
        ("ordinary card (12 lines)", workloads::ordinary()),
        ("509 lines with PROP-ID", workloads::prop_ids()),
        ("full card (512 lines, 32,768 bytes)", workloads::full()),
        ("800 surnames and 800 second surnames", growth::surname_values(800)),
        ("JSPROP of depth 15 in 32,768 bytes", deep),
    ];
    head(["card to JSON", "a stream of it"]);
    for (name, card) in &cards {
        row(name, [card_to_json(card), stream(card)].map(grouped));
    }
    let most = [greatest(generate::card, card_to_json), greatest(generate::card, stream)];
    row(&format!("the greatest of {} generated cards", grouped(GENERATED)), most.map(grouped));
    let (most, card) = deepest::search(deepest::card, card_to_json);
    row(&searched(&card), [most, stream(&card)].map(grouped));
}

fn searched(input: &[u8]) -> String {
    format!("the deepest that a search found: {} B", grouped(input.len()))
}

fn print_texts() {
    let (deep, kept) = (workloads::deep_json(), workloads::deep_kept());
    assert!(thymebarrel::json_to_card(&deep).is_ok() && thymebarrel::json_to_card(&kept).is_ok());
    let texts = [
        ("refused at the first byte", b"no JSON".to_vec()),
        ("ordinary card's JSON (12 lines)", json_of(&workloads::ordinary())),
        ("full card's JSON (512 lines)", json_of(&workloads::full_home())),
        ("JSON of depth 16 in 65,536 bytes", deep),
        ("vCardProps with JSPROP of depth 15", kept),
        ("800 entries of a map, 800 kept lines", growth::keyed(800)),
        ("800 components of a name", growth::surnames(800)),
        ("9,000 names in one object", workloads::names()),
    ];
    head(["JSON to card", "look-up"]);
    for (name, text) in &texts {
        row(name, [json_to_card(text), look_up(text)].map(grouped));
    }
    let most = [greatest(generate::json, json_to_card), greatest(generate::json, look_up)];
    row(&format!("the greatest of {} generated texts", grouped(GENERATED)), most.map(grouped));
    let (most, text) = deepest::search(deepest::text, json_to_card);
    row(&searched(&text), [most, look_up(&text)].map(grouped));
}

fn head(names: [&str; 2]) {
    row("Input", names.map(str::to_string));
    println!("|---|---|---|");
}

fn row(name: &str, [one, other]: [String; 2]) {
    println!("| {name:<42} | {one:>14} | {other:>14} |");
}
