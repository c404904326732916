//! A host in Rust: prints the listing of the book in the file named, or of a book that it builds itself.
use std::io::{self, Write};
use std::process::ExitCode;

/// Long enough for the listing of any book.
const PLACE: usize = 38000;

extern "C" {
    fn bench_listing(book: *const u8, book_len: usize, place: *mut u8, place_len: usize) -> usize;
}

/// The listing of a book; none where the place is too short for it.
fn listing<'a>(book: &[u8], place: &'a mut [u8]) -> Option<&'a [u8]> {
    // SAFETY: both pointers come from slices, with their lengths; a slice's pointer is never null, and a shared
    // and a mutable slice never overlap. The library writes to the place alone, and keeps no pointer.
    let len = unsafe { bench_listing(book.as_ptr(), book.len(), place.as_mut_ptr(), place.len()) };
    if len == 0 {
        return None;
    }
    place.get(..len)
}

fn pair(offset: u32, length: u32) -> [u8; 8] {
    let fields = u64::from(offset) | u64::from(length) << 32;
    fields.to_le_bytes()
}

/// Three edits through two rings of one cell on the prompt memory.
fn example() -> Vec<u8> {
    let words: [u64; 3] = [0x01010100000000FA, 0x0301010000000FA0, 0x0402010000000032];
    let moves = [[0x00; 13].as_slice(), &[0x01; 11], &[0x00; 3]].concat();

    let mut book = vec![3];
    book.extend(pair(25, 5));
    book.extend(pair(30, 24));
    book.extend(pair(54, moves.len() as u32));
    book.extend([1, 2, 1, 1, 0]);
    book.extend(words.iter().flat_map(|word| word.to_le_bytes()));
    book.extend(moves);
    book
}

fn run() -> io::Result<()> {
    let book = match std::env::args_os().nth(1) {
        Some(path) => std::fs::read(path)?,
        None => example(),
    };
    let mut place = vec![0; PLACE];
    let Some(listing) = listing(&book, &mut place) else {
        return Err(io::Error::other("the place is too short for the listing"));
    };
    io::stdout().write_all(listing)
}

fn main() -> ExitCode {
    match run() {
        Ok(()) => ExitCode::SUCCESS,
        Err(error) => {
            eprintln!("{error}");
            ExitCode::FAILURE
        }
    }
}
