// How far a work has come: a line on standard error every few seconds.
use std::sync::atomic::{AtomicUsize, Ordering};
use std::sync::mpsc::{channel, RecvTimeoutError};
use std::time::{Duration, Instant};

const EVERY: Duration = Duration::from_secs(5);

pub struct Progress {
    name: &'static str,
    all: usize,
    done: AtomicUsize,
    start: Instant,
}

impl Progress {
    pub fn one_done(&self) {
        self.done.fetch_add(1, Ordering::Relaxed);
    }

    fn tell(&self) {
        let (name, done, all) = (self.name, self.done.load(Ordering::Relaxed), self.all);
        let spent = self.start.elapsed().as_secs_f64();
        let rate = done as f64 / spent;
        eprintln!("{name}: {done} of {all} after {spent:.0} s, {rate:.2} a second");
    }
}

// Does a work of so many parts, while a thread of its own tells how many are done.
pub fn told<T>(name: &'static str, all: usize, work: impl FnOnce(&Progress) -> T) -> T {
    let progress = Progress {
        name,
        all,
        done: AtomicUsize::new(0),
        start: Instant::now(),
    };
    std::thread::scope(|scope| {
        let (end, ended) = channel::<()>();
        let told = &progress;
        scope.spawn(move || {
            while ended.recv_timeout(EVERY) == Err(RecvTimeoutError::Timeout) {
                told.tell();
            }
        });
        let came = work(&progress);
        drop(end);
        came
    })
}
