//! The proved library, through its C functions.

use crate::cases::Case;
use crate::Found;

#[repr(C)]
struct Answer {
    number: u64,
    place: u64,
    count: u64,
    value: u64,
}

macro_rules! questions {
    ($($name:ident($($arg:ident: $type:ty),*);)*) => {
        mod c {
            use super::Answer;
            extern "C" {
                $(pub fn $name($($arg: $type),*) -> Answer;)*
            }
        }
        $(
            unsafe fn $name($($arg: $type),*) -> Found {
                let a = c::$name($($arg),*);
                (a.number, a.place, a.count, a.value)
            }
        )*
    };
}

questions! {
    muthaveri_check(image: *const u32, image_len: usize);
    muthaveri_conform(image: *const u32, image_len: usize, heap: *const u64, heap_len: usize, inputs: *const u64, inputs_len: usize);
    muthaveri_run(
        image: *const u32, image_len: usize, heap: *mut u64, heap_len: usize, inputs: *const u64, inputs_len: usize,
        room: *mut u64, room_len: usize, steps: u64, depth: u64
    );
}

pub fn check(case: &Case) -> Found {
    unsafe { muthaveri_check(case.image.as_ptr(), case.image.len()) }
}

pub fn conform(case: &Case, heap: &[u64]) -> Found {
    let (image, inputs) = (&case.image, &case.inputs);
    unsafe { muthaveri_conform(image.as_ptr(), image.len(), heap.as_ptr(), heap.len(), inputs.as_ptr(), inputs.len()) }
}

pub fn run(case: &Case, heap: &mut [u64], room: &mut [u64]) -> Found {
    let (image, inputs) = (&case.image, &case.inputs);
    unsafe {
        muthaveri_run(
            image.as_ptr(), image.len(), heap.as_mut_ptr(), heap.len(), inputs.as_ptr(), inputs.len(), room.as_mut_ptr(), room.len(),
            case.steps, case.depth,
        )
    }
}
