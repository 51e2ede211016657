//! The bench PC: a table of words, a list of jobs, and what each answered.
//! scripts/examples builds and runs this.

use chantgarden::job::{Faults, Job};

/// Words 0 and 1 are lock 0's, word 2 is lock 7's.
const GUARDS: [u8; 3] = [0, 0, 7];

/// Adds 1 to word 0.
const ADD: &str = "
    load r0 w0
    set r1 1
    add r0 r1
    store r0 w0
    halt yes";
/// Are words 0 and 1 equal?
const EQUAL: &str = "
    load r0 w0
    load r1 w1
    skip to equal if r0 = r1
    halt no
    equal: halt yes";
/// Word 2 becomes 500 if it is 7.
const EXCHANGE: &str = "
    set r0 7
    set r1 500
    cam w2 r0 r1
    halt yes";

fn main() -> Result<(), Faults> {
    let (add, equal, exchange): (Job, Job, Job) = (ADD.parse()?, EQUAL.parse()?, EXCHANGE.parse()?);
    let mut values = [5, 9, 7];
    let jobs: [(&str, u32, &[u8]); 6] = [
        ("add", 0, add.record()),
        ("equal", 0, equal.record()),
        ("exchange", 7, exchange.record()),
        ("exchange again", 7, exchange.record()),
        ("add under lock 7", 7, add.record()),
        ("half of a job", 0, &add.record()[..12]),
    ];
    for (name, lock, record) in jobs {
        let told = match chantgarden::plain(&mut values, &GUARDS, lock, record) {
            Ok(ran) => {
                let answer = if ran.yes { "yes" } else { "no" };
                format!("{answer}, {} executed", ran.executed)
            }
            Err(refusal) => format!("refused {} at place {}", refusal.number, refusal.place),
        };
        let [first, second, third] = values;
        println!("{name}: {told}; words {first} {second} {third}");
    }
    Ok(())
}
