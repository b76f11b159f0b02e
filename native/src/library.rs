//! The verified library as a function of Rust. All unsafe code is here.

use std::ffi::{c_int, c_void};
use std::ptr::{from_mut, null_mut};

type Play = unsafe extern "C" fn(*const u8, usize, *mut u8, usize) -> i32;

extern "C" {
    fn gomtaiwu_play_sheet(
        sheet: *const u8,
        sheet_len: usize,
        answer: *mut u8,
        answer_len: usize,
    ) -> i32;

    fn pthread_attr_init(attributes: *mut Attributes) -> c_int;
    fn pthread_attr_setstack(attributes: *mut Attributes, stack: *mut c_void, size: usize)
        -> c_int;
    fn pthread_attr_destroy(attributes: *mut Attributes) -> c_int;
    fn pthread_create(
        thread: *mut usize,
        attributes: *const Attributes,
        start: extern "C" fn(*mut c_void) -> *mut c_void,
        argument: *mut c_void,
    ) -> c_int;
    fn pthread_join(thread: usize, result: *mut *mut c_void) -> c_int;
}

/// The library's `gomtaiwu_play_sheet`.
pub fn play_sheet(sheet: &[u8], answer: &mut [u8]) -> i32 {
    // SAFETY: slices are never null; they can be read and written for their lengths, and a
    // shared and an exclusive one cannot overlap.
    unsafe {
        gomtaiwu_play_sheet(
            sheet.as_ptr(),
            sheet.len(),
            answer.as_mut_ptr(),
            answer.len(),
        )
    }
}

/// Room for the system's `pthread_attr_t`, which is smaller.
#[repr(C, align(16))]
struct Attributes([u8; 256]);

#[derive(Clone)]
#[repr(C, align(4096))]
struct Page([u8; 4096]);

struct Job<'a> {
    play: Play,
    sheet: &'a [u8],
    answer: &'a mut [u8],
    /// An address within the frame that calls `play`.
    frame: usize,
}

/// Has the library's signature, and does nothing.
unsafe extern "C" fn play_nothing(_: *const u8, _: usize, _: *mut u8, _: usize) -> i32 {
    0
}

extern "C" fn run(job: *mut c_void) -> *mut c_void {
    // SAFETY: `depth` gives a job that nothing else uses until this thread has ended.
    let job = unsafe { &mut *job.cast::<Job>() };
    let marker = 0u8;
    job.frame = std::hint::black_box(&raw const marker) as usize;
    // SAFETY: as in `play_sheet`.
    unsafe {
        let answer = job.answer.as_mut_ptr();
        (job.play)(
            job.sheet.as_ptr(),
            job.sheet.len(),
            answer,
            job.answer.len(),
        );
    }
    null_mut()
}

/// Runs the job on a thread of its own, on a stack that was painted with a byte before, and
/// answers how far below the calling frame the paint is gone.
fn depth(play: Play, sheet: &[u8], answer: &mut [u8], paint: u8) -> usize {
    let mut stack = vec![Page([paint; 4096]); 256];
    let size = size_of_val(stack.as_slice());
    let base = stack.as_mut_ptr().cast::<u8>();
    let mut job = Job {
        play,
        sheet,
        answer,
        frame: 0,
    };
    let mut attributes = Attributes([0; 256]);
    let mut thread = 0;
    // SAFETY: the stack is page-aligned, larger than the least, and used by nothing else until
    // the thread was joined; so is the job.
    unsafe {
        assert_eq!(pthread_attr_init(&mut attributes), 0);
        assert_eq!(pthread_attr_setstack(&mut attributes, base.cast(), size), 0);
        let argument = from_mut(&mut job).cast();
        assert_eq!(pthread_create(&mut thread, &attributes, run, argument), 0);
        assert_eq!(pthread_join(thread, null_mut()), 0);
        assert_eq!(pthread_attr_destroy(&mut attributes), 0);
    }
    let kept = stack
        .iter()
        .flat_map(|page| page.0)
        .take_while(|&byte| byte == paint)
        .count();
    job.frame - (base as usize + kept)
}

/// How many bytes of stack a call of the library overwrites, and how many a call of nothing
/// does on such a thread.
#[allow(dead_code)] // the comparison has no use for it
pub fn stack_needed(sheet: &[u8], answer: &mut [u8]) -> (usize, usize) {
    // Two paints, since a byte may happen to be overwritten with the paint.
    let mut deepest = |play: Play| {
        let depths = [0xa5, 0x5b].map(|paint| depth(play, sheet, answer, paint));
        depths[0].max(depths[1])
    };
    (deepest(gomtaiwu_play_sheet), deepest(play_nothing))
}
