//! What the programs over libraries of Rust share: `PROGRAM TYPE READS WRITES` reads the value on standard input so many times, and writes
//! it so many times. Then it prints how many bytes writing makes, and their checksum, as `measure_codecs` and `measure_certificates` do.

use std::env;
use std::hint::black_box;
use std::io::{self, Read};

pub struct Task {
    pub type_name: String,
    reads: u32,
    writes: u32,
}

impl Task {
    /// The task that the arguments name, and standard input.
    pub fn of_process() -> io::Result<(Task, Vec<u8>)> {
        let mut words = env::args().skip(1);
        let type_name = words.next().unwrap_or_default();
        let mut number = || words.next().and_then(|word| word.parse().ok()).unwrap_or(0);
        let task = Task { type_name, reads: number(), writes: number() };
        let mut input = Vec::new();
        io::stdin().read_to_end(&mut input)?;
        Ok((task, input))
    }

    /// Reads and writes as often as is asked, and prints what writing makes.
    pub fn run<'a, I: ?Sized, T>(&self, input: &'a I, read: impl Fn(&'a I) -> T, write: impl Fn(&T) -> Vec<u8>) {
        for _ in 0..self.reads {
            black_box(read(black_box(input)));
        }
        let value = read(input);
        for _ in 0..self.writes {
            black_box(write(black_box(&value)));
        }
        let bytes = write(&value);
        let checksum = bytes.iter().fold(0u32, |sum, &byte| sum.wrapping_mul(31).wrapping_add(u32::from(byte)));
        println!("{} bytes, checksum {checksum}", bytes.len());
    }
}
