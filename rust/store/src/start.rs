//! What is done before the program starts: a look which of its standard files are open, since the
//! standard library opens /dev/null in the place of a closed one; and writes beyond a limit on the size
//! of files are made to fail, where they would end the program.

use std::sync::atomic::{AtomicBool, Ordering};

use store::files::Standard;

static INPUT: AtomicBool = AtomicBool::new(true);
static OUTPUT: AtomicBool = AtomicBool::new(true);

pub fn standard() -> Standard {
    Standard { input: INPUT.load(Ordering::Relaxed), output: OUTPUT.load(Ordering::Relaxed) }
}

#[cfg(target_os = "linux")]
mod look {
    use super::{Ordering, INPUT, OUTPUT};

    const F_GETFD: i32 = 1;
    const SIGXFSZ: i32 = 25;
    const SIG_IGN: usize = 1;

    extern "C" {
        fn fcntl(file: i32, command: i32, ...) -> i32;
        fn signal(number: i32, handler: usize) -> usize;
    }

    extern "C" fn look() {
        for (number, open) in [(0, &INPUT), (1, &OUTPUT)] {
            // SAFETY: the call reads the flags of a file number and changes nothing.
            open.store(unsafe { fcntl(number, F_GETFD) } != -1, Ordering::Relaxed);
        }
        // SAFETY: the signal is ignored, for which no handler is needed.
        unsafe { signal(SIGXFSZ, SIG_IGN) };
    }

    #[used]
    #[link_section = ".init_array"]
    static LOOK: extern "C" fn() = look;
}
