//! Two threads submit jobs, and two run them, each job on processors of its own, out of 16.

use cubejobs::sched::{Options, Request, Scheduler, Waiting};
use std::thread;

fn main() -> Result<(), Box<dyn std::error::Error>> {
    // At most 64 jobs wait and run at once, and at most 2 threads are workers.
    let scheduler = Scheduler::<u32>::new(Options::new(4, 64, 2))?;
    let work = || {
        let mut worker = scheduler.worker().expect("there are two workers");
        let (mut jobs, mut processors) = (0, 0);
        // The call sleeps until a job starts: on the processors from `base` on.
        while let Ok(job) = worker.next() {
            assert_eq!(job.processors(), 1 << *job);
            processors += job.processors();
            jobs += 1;
        } // here the job is dropped, which ends it
        (jobs, processors)
    };
    let submit = || {
        for number in 0..20 {
            let dim = number % 5;
            scheduler.submit(dim, Request::new(1 << dim)).expect("the scheduler is open");
        }
    };
    let done = thread::scope(|scope| {
        let workers = [scope.spawn(work), scope.spawn(work)];
        let submitters = [scope.spawn(submit), scope.spawn(submit)];
        for it in submitters {
            it.join().expect("a submitter does not fail");
        }
        scheduler.close(Waiting::Run); // the workers run what waits, and then they end
        workers.map(|it| it.join().expect("a worker does not fail"))
    });
    let [one, other] = done;
    println!("{} jobs ran on {} processors in all", one.0 + other.0, one.1 + other.1);
    Ok(())
}
