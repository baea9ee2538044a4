// Tasks by number on several threads, until all are done or one finds a difference; what they count is added up.
use crate::progress::{self, Progress};
use std::collections::BTreeMap;
use std::ops::Range;
use std::sync::atomic::{AtomicUsize, Ordering};
use std::sync::Mutex;
use std::time::Instant;

// How often something was met, by lines of what is printed and by entries of a line.
#[derive(Default)]
pub struct Tally(BTreeMap<String, BTreeMap<String, usize>>);

impl Tally {
    pub fn count(&mut self, line: impl Into<String>, entry: impl Into<String>, times: usize) {
        let line = self.0.entry(line.into()).or_default();
        *line.entry(entry.into()).or_default() += times;
    }

    fn add(&mut self, other: Tally) {
        for (line, entries) in other.0 {
            for (entry, times) in entries {
                self.count(line.clone(), entry, times);
            }
        }
    }

    fn print(&self) {
        for (line, entries) in &self.0 {
            let texts = entries
                .iter()
                .map(|(entry, times)| format!("{entry} {times}"));
            println!("  {line}: {}", texts.collect::<Vec<String>>().join(", "));
        }
    }
}

// A difference, as it is reported.
pub type Report = String;

// What the threads share: the next task, the first difference found, and what was counted.
struct Shared {
    next: AtomicUsize,
    found: Mutex<Option<(usize, Report)>>,
    total: Mutex<Tally>,
}

// All tasks; or the difference of the lowest task, of those found before all threads stopped.
pub fn run(
    name: &'static str,
    tasks: Range<usize>,
    threads: usize,
    task: impl Fn(usize, &mut Tally) -> Result<(), Report> + Sync,
) -> Result<(), Report> {
    let start = Instant::now();
    let shared = Shared {
        next: AtomicUsize::new(tasks.start),
        found: Mutex::default(),
        total: Mutex::default(),
    };
    progress::told(name, tasks.len(), |progress| {
        std::thread::scope(|scope| {
            for _ in 0..threads {
                scope.spawn(|| work(&shared, tasks.end, progress, &task));
            }
        })
    });
    if let Some((number, report)) = shared.found.into_inner().unwrap() {
        return Err(format!("DIFFERENT: {name}, task {number}: {report}"));
    }
    let spent = start.elapsed().as_secs_f64();
    println!("{name}: {} equal, {spent:.1} s", tasks.len());
    shared.total.into_inner().unwrap().print();
    Ok(())
}

// One thread: takes tasks until there are none, and leaves none if it finds a difference.
fn work(
    shared: &Shared,
    end: usize,
    progress: &Progress,
    task: &impl Fn(usize, &mut Tally) -> Result<(), Report>,
) {
    let mut tally = Tally::default();
    loop {
        let number = shared.next.fetch_add(1, Ordering::Relaxed);
        if number >= end {
            break;
        }
        if let Err(report) = task(number, &mut tally) {
            shared.next.store(end, Ordering::Relaxed);
            let mut found = shared.found.lock().unwrap();
            if found.as_ref().is_none_or(|(earlier, _)| number < *earlier) {
                *found = Some((number, report));
            }
        }
        progress.one_done();
    }
    shared.total.lock().unwrap().add(tally);
}
