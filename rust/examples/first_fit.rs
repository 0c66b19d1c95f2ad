//! Two jobs take blocks of a machine of 8 processors by exact first fit, and a third has to wait.

use cubejobs::fit::{FirstFit, FitError};

fn main() -> Result<(), FitError> {
    let mut machine = FirstFit::new(3)?;
    let pair = machine.take(1)?;
    let four = machine.take(2)?;
    let none = machine.take(2).unwrap_err();
    println!("{pair} {four}, then: {none}");
    machine.release(pair)?;
    machine.release(four)?;
    assert_eq!(machine.occupancy().held, 0);
    Ok(())
}
