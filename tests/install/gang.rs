//! A program of a user of the pool: a gang adds the ranks of its workers.
use cubejobs_pool::Pool;
fn main() {
    let pool = Pool::builder().workers_log2(2).build().unwrap();
    println!("{:?}", pool.run(2, |group| group.all_reduce(group.rank(), |a, b| a + b)));
}
