//! Work that takes longer than a second is told of while it is done.

use std::io::{self, Write};
use std::sync::mpsc::{self, Receiver, RecvTimeoutError};
use std::thread;
use std::time::Duration;

/// Does some work. After a second standard error says what it is, and then has a dot for each further second.
pub fn told<T>(what: &str, work: impl FnOnce() -> T) -> T {
    ticking(what, &mut io::stderr(), Duration::from_secs(1), work)
}

fn ticking<T>(
    what: &str,
    to: &mut (impl Write + Send),
    each: Duration,
    work: impl FnOnce() -> T,
) -> T {
    let (working, ended) = mpsc::channel();
    thread::scope(|scope| {
        scope.spawn(move || tick(what, to, each, &ended));
        let done = work();
        drop(working);
        done
    })
}

/// Says what is done, then dots, until the other end is gone.
fn tick(what: &str, to: &mut impl Write, each: Duration, ended: &Receiver<()>) {
    let mut text = what;
    while ended.recv_timeout(each) == Err(RecvTimeoutError::Timeout) {
        // where it can't be written, the work goes on unseen
        let _ = to.write_all(text.as_bytes()).and_then(|()| to.flush());
        text = ".";
    }
    if text == "." {
        let _ = to.write_all(b"\n");
    }
}

#[cfg(test)]
mod tests {
    use super::ticking;
    use std::thread::sleep;
    use std::time::Duration;

    const TICK: Duration = Duration::from_millis(100);

    #[test]
    fn quick_work_is_silent() {
        let mut said = Vec::new();
        assert_eq!(ticking("work ", &mut said, 100 * TICK, || 7), 7);
        assert_eq!(said, b"");
    }

    #[test]
    fn slow_work_is_told_of() {
        let mut said = Vec::new();
        ticking("work ", &mut said, TICK, || sleep(8 * TICK));
        let said = String::from_utf8(said).expect("text");
        assert!(
            said.starts_with("work ..") && said.ends_with(".\n"),
            "{said}"
        );
    }
}
