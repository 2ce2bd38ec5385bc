//! Verifies a proof for a statement: verify STATEMENT PROOF.
use std::ffi::c_int;

extern "C" {
    fn voskligan_verify(
        statement: *const u8,
        statement_length: usize,
        proof: *const u8,
        proof_length: usize,
        message: *mut u8,
        room: usize,
    ) -> c_int;
}

/// 0 where the proof is accepted, 1 where it is refused, 2 where nothing was judged, and what is
/// said of it.
pub fn verify(statement: &[u8], proof: &[u8]) -> (c_int, String) {
    let mut message = [0; 512];
    // SAFETY: each pointer and the length after it are those of one slice, and the message, which
    // is written, overlaps neither of the others.
    let answer = unsafe {
        voskligan_verify(
            statement.as_ptr(),
            statement.len(),
            proof.as_ptr(),
            proof.len(),
            message.as_mut_ptr(),
            message.len(),
        )
    };
    let end = message.iter().position(|byte| *byte == 0).unwrap_or(0);
    (answer, String::from_utf8_lossy(&message[..end]).into_owned())
}

fn main() {
    let words: Vec<String> = std::env::args().collect();
    let [_, statement, proof] = words.as_slice() else {
        eprintln!("verify STATEMENT PROOF");
        std::process::exit(2);
    };
    let read = |path| std::fs::read(path).expect("a file that can be read");
    let (answer, message) = verify(&read(statement), &read(proof));
    print!("{message}");
    std::process::exit(answer);
}
