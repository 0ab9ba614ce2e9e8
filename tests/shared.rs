//! shared SIZE PROGRAM FILE...: a caller of the shared library in another language than C. For each file the report and the verdict of the
//! library, on a page of SIZE bytes, are held against the page that the program prints.

use std::io::Write;
use std::process::{Command, Stdio};
use std::{env, fs};

#[link(name = "battenplum", kind = "dylib")]
extern "C" {
    fn battenplum_verdict(text: *const u8, text_len: usize) -> u32;
    fn battenplum_report(text: *const u8, text_len: usize, page: *mut u8, page_len: usize) -> usize;
}

fn printed(program: &str, text: &[u8]) -> Vec<u8> {
    let mut child = Command::new(program).stdin(Stdio::piped()).stdout(Stdio::piped()).spawn().expect("the program starts");
    child.stdin.take().unwrap().write_all(text).expect("the program reads");
    child.wait_with_output().expect("the program ends").stdout
}

fn main() {
    let mut arguments = env::args().skip(1);
    let page_size = arguments.next().and_then(|size| size.parse().ok()).expect("the size of a page");
    let program = arguments.next().expect("a program");
    let (mut books, mut accepted) = (0, 0);
    for name in arguments {
        let text = fs::read(&name).expect("a book");
        let mut page = vec![0u8; page_size];
        let length = unsafe { battenplum_report(text.as_ptr(), text.len(), page.as_mut_ptr(), page.len()) };
        assert!(page[..length] == printed(&program, &text), "{name}: the library's report is not the program's page");

        let verdict = unsafe { battenplum_verdict(text.as_ptr(), text.len()) };
        let last = match verdict {
            0 => "(accepted)\n".to_string(),
            _ => format!("(refused {} {})\n", verdict >> 16, verdict & 0xFFFF),
        };
        assert!(page[..length].ends_with(last.as_bytes()), "{name}: the verdict is not {last}");
        books += 1;
        accepted += u32::from(verdict == 0);
    }
    assert!(0 < accepted && accepted < books, "{accepted} of {books} books are accepted, which tries one side alone");
    println!("{books} books");
}
