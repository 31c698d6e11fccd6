use crate::raw;
use std::io;
use std::panic;
use std::thread::{self, Builder};

/// Room that most outputs fit.
const USUAL: usize = 4096;

/// The stack of the thread that answers. A text takes about 896 kB of it.
const STACK: usize = 2 * 1024 * 1024;

/// The whole output of a text, as the program `sorts` writes it: which sort each term has, which statements clash, what
/// is still open, or the line that is refused. Any bytes are a text. docs/TEXT.md of the repository says what each row
/// means; only an output whose first word is `ok` says that every term that must get a sort has one.
///
/// The text is answered in a thread of its own with 2 MB of stack, so the caller's stack may be small. Where that
/// thread cannot be started, the system's error is handed back.
///
/// ```
/// let text = b"sort Reading\nsort Metre\nfun dist Reading Metre\natom dist t d\n";
/// assert_eq!(sortlib::text(text)?, b"ok 2 passes 2\nt Reading\nd Metre\n");
/// # Ok::<(), std::io::Error>(())
/// ```
pub fn text(text: &[u8]) -> io::Result<Vec<u8>> {
    thread::scope(|scope| {
        let builder = Builder::new().stack_size(STACK);
        let thread = builder.spawn_scoped(scope, || whole_output(text))?;
        Ok(thread
            .join()
            .unwrap_or_else(|panic| panic::resume_unwind(panic)))
    })
}

/// An output that does not fit the room that is tried first is asked for again with all the room that it needs.
fn whole_output(text: &[u8]) -> Vec<u8> {
    let mut out = vec![0; USUAL];
    let length = raw::text(text, &mut out);
    let fits = length <= out.len();
    out.resize(length, 0);
    if !fits {
        raw::text(text, &mut out);
    }
    out
}
