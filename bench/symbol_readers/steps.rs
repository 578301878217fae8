//! What the readers in Rust share: their words, the sums, and the lines that they print.

use std::error::Error;
use std::hint::black_box;
use std::os::raw::{c_int, c_long};
use std::{env, fs};

/// The sums of a reader over the symbols. The section of a symbol counts from 1, and 0 stands for no section. Over
/// fixups a reader adds up the addresses, the segments from 1 on, and the indices of the imports.
#[derive(Clone, Copy, Default)]
pub struct Sums {
    count: u64,
    values: u64,
    sections: u64,
    lengths: u64,
}

impl Sums {
    #[inline]
    pub fn add(&mut self, value: u64, section: u64, length: usize) {
        self.count += 1;
        self.values = self.values.wrapping_add(value);
        self.sections += section;
        self.lengths += length as u64;
    }
}

#[repr(C)]
struct Timespec {
    seconds: c_long,
    nanoseconds: c_long,
}

extern "C" {
    fn clock_gettime(clock: c_int, time: *mut Timespec) -> c_int;
}

/// `CLOCK_PROCESS_CPUTIME_ID` of Linux.
const PROCESSOR_TIME: c_int = 2;

/// The nanoseconds of the processor that this process has had.
fn processor_time() -> u128 {
    let mut time = Timespec {
        seconds: 0,
        nanoseconds: 0,
    };
    // SAFETY: the call writes a `struct timespec`, which is two longs on x86-64.
    let failed = unsafe { clock_gettime(PROCESSOR_TIME, &mut time) };
    assert_eq!(failed, 0, "there is no time of the processor");
    time.seconds as u128 * 1_000_000_000 + time.nanoseconds as u128
}

/// What the words `ROUNDS REPEATS FILE` ask for.
pub struct Task {
    pub rounds: u64,
    pub file: Vec<u8>,
    repeats: u64,
}

impl Task {
    pub fn from_words() -> Result<Self, Box<dyn Error>> {
        let words: Vec<String> = env::args().skip(1).collect();
        let [rounds, repeats, path] = words.as_slice() else {
            return Err("usage: ROUNDS REPEATS FILE".into());
        };
        Ok(Task {
            rounds: rounds.parse()?,
            repeats: repeats.parse()?,
            file: fs::read(path)?,
        })
    }

    /// Opens the file as often as the step has to be repeated, prints how long that took, and returns
    /// what was opened.
    pub fn open<'a, T>(
        &'a self,
        step: impl Fn(&'a [u8]) -> Result<T, Box<dyn Error>>,
    ) -> Result<T, Box<dyn Error>> {
        let (taken, opened) = self.time(|| step(black_box(&self.file)))?;
        println!("open {taken}");
        Ok(opened)
    }

    /// Times a loop over the symbols or the fixups of images. It prints the sums, too.
    pub fn sum<T>(
        &self,
        name: &str,
        images: &[T],
        add: impl Fn(&T, &mut Sums) -> Result<(), Box<dyn Error>>,
    ) -> Result<(), Box<dyn Error>> {
        let (taken, sums) = self.time(|| {
            let mut sums = Sums::default();
            for image in black_box(images) {
                add(image, &mut sums)?;
            }
            Ok(black_box(sums))
        })?;
        let Sums {
            count,
            values,
            sections,
            lengths,
        } = sums;
        println!("{name} {taken} {count} {values} {sections} {lengths}");
        Ok(())
    }

    /// The nanoseconds of the processor of all repeats of a step, and what the last one returns.
    fn time<T>(
        &self,
        step: impl Fn() -> Result<T, Box<dyn Error>>,
    ) -> Result<(u128, T), Box<dyn Error>> {
        let began = processor_time();
        let mut last = step()?;
        for _ in 1..self.repeats {
            last = step()?;
        }
        Ok((processor_time() - began, last))
    }
}
