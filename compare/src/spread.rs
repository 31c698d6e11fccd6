//! Work for all processors.
use crate::tally::Tally;
use std::thread::Builder;

/// Bytes of each worker's stack: the library's lists for a text are a megabyte of it.
const STACK: usize = 1 << 24;

/// Does the job of each number below the count, in parallel, and joins what was seen.
pub fn spread(group: &'static str, count: u64, job: impl Fn(u64, &mut Tally) + Sync) -> Tally {
    let threads = std::thread::available_parallelism().map_or(1, |n| n.get());
    let mut tally = Tally::new(group);
    let parts: Vec<Tally> = std::thread::scope(|scope| {
        let job = &job;
        let workers: Vec<_> = (0..threads)
            .map(|worker| {
                let work = move || {
                    let mut part = Tally::new(group);
                    for number in (worker as u64..count).step_by(threads) {
                        job(number, &mut part);
                    }
                    part
                };
                let worker = Builder::new().stack_size(STACK).spawn_scoped(scope, work);
                worker.expect("a worker starts")
            })
            .collect();
        let ended = workers.into_iter().map(|worker| worker.join());
        ended.map(|part| part.expect("a worker ends")).collect()
    });
    for part in parts {
        tally.join(part);
    }
    tally
}
