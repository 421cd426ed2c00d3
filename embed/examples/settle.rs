//! `fc` in a Rust program: answers words with what is on standard input.
//!
//!     rustc settle.rs $(pkg-config --libs-only-L fc)
//!     ./settle "check --settle" < hop_count_line.txt
use std::io::{self, Read, Write};
use std::process::ExitCode;

mod fc {
    #[link(name = "fc")]
    extern "C" {
        fn fc_reply(
            words: *const u8,
            words_length: usize,
            input: *const u8,
            input_length: usize,
            room: *mut u8,
            room_length: usize,
            needed: &mut usize,
        ) -> u32;
    }

    /// The greatest status that comes with a text.
    const LIMIT: u32 = 4;

    /// The status and the text; with a status above 4 there is no text.
    pub fn answer(words: &str, input: &[u8]) -> (u32, Vec<u8>) {
        let mut room = vec![0; 1 << 16];
        loop {
            let mut needed = 0;
            // The slices are as long as is said, and nothing else touches them during the call.
            let status = unsafe {
                fc_reply(
                    words.as_ptr(),
                    words.len(),
                    input.as_ptr(),
                    input.len(),
                    room.as_mut_ptr(),
                    room.len(),
                    &mut needed,
                )
            };
            if status > LIMIT || needed <= room.len() {
                room.truncate(needed);
                return (status, room);
            }
            room.resize(needed, 0);
        }
    }
}

fn main() -> io::Result<ExitCode> {
    let words = std::env::args().nth(1).unwrap_or_default();
    let mut input = Vec::new();
    io::stdin().read_to_end(&mut input)?;
    let (status, text) = fc::answer(&words, &input);
    io::stdout().write_all(&text)?;
    Ok(ExitCode::from(status as u8))
}
