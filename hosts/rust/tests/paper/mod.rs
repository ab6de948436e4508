//! Document 01 once more, as plainly as it can be said: no speed, no room, no proof. Each number and each rule has a function of its own.

mod heap;
mod image;
mod reduction;
mod tree;
mod typing;

use heap::Heap;
use image::Image;

/// Number, place, count and value of an answer.
pub type Told = (u64, u64, u64, u64);

type Refusal = (u64, u64);

// A rule that is broken is told with its number.
fn ask(number: u64, breach: Option<usize>) -> Result<(), Refusal> {
    match breach {
        Some(place) => Err((number, place as u64)),
        None => Ok(()),
    }
}

fn told(answer: Result<(), Refusal>) -> Told {
    let (number, place) = answer.err().unwrap_or((0, 0));
    (number, place, 0, 0)
}

// Numbers 1 to 10: what all three questions ask of an image.
fn laid_out(words: &[u32]) -> Result<Image, Refusal> {
    ask(1, image::no_format(words))?;
    ask(2, image::broken_trailer(words))?;
    ask(3, image::over_ceiling(words))?;
    let image = image::read(words);
    ask(4, image.broken_class())?;
    ask(5, image.broken_field())?;
    ask(6, image.broken_method())?;
    ask(7, image.broken_type())?;
    ask(8, image.broken_node())?;
    ask(9, image.broken_body())?;
    ask(10, image.too_many_fields())?;
    Ok(image)
}

fn checked(words: &[u32]) -> Result<(), Refusal> {
    let image = laid_out(words)?;
    ask(11, image.broken_override())?;
    ask(12, typing::untyped(&image))?;
    ask(13, typing::unset(&image))
}

// Numbers 14 to 16, which conformity and run both ask.
fn loaded(image: &Image, heap: &[u64], inputs: &[u64]) -> Result<(), Refusal> {
    ask(14, heap::no_length(heap))?;
    ask(15, heap::broken_word(image, heap))?;
    ask(16, heap::broken_input(image, inputs))
}

fn conforming(words: &[u32], heap: &[u64], inputs: &[u64]) -> Result<(), Refusal> {
    let image = laid_out(words)?;
    loaded(&image, heap, inputs)?;
    let objects = Heap::read(&image, heap);
    ask(17, heap::unfit_word(&image, &objects))?;
    ask(18, heap::unfit_input(&image, &objects, inputs))
}

fn startable(words: &[u32], heap: &[u64], inputs: &[u64], room: usize, depth: u64) -> Result<Image, Refusal> {
    let image = laid_out(words)?;
    loaded(&image, heap, inputs)?;
    ask(19, (depth < 1 || depth > 1024).then_some(0))?;
    ask(20, ((room as u64) < 16 * depth + 160).then_some(0))?;
    Ok(image)
}

pub fn check(image: &[u32]) -> Told {
    told(checked(image))
}

pub fn conform(image: &[u32], heap: &[u64], inputs: &[u64]) -> Told {
    told(conforming(image, heap, inputs))
}

/// The answer, and the heap afterwards.
pub fn run(image: &[u32], heap: &[u64], inputs: &[u64], room: usize, steps: u64, depth: u64) -> (Told, Vec<u64>) {
    match startable(image, heap, inputs, room, depth) {
        Err((number, place)) => ((number, place, 0, 0), heap.to_vec()),
        Ok(image) => reduction::run(&image, Heap::read(&image, heap), inputs, steps, depth),
    }
}
