//! Prints, for each case, the time of a message by the proved controller, by the plain one and,
//! where the build was given one, by an earlier one; the ratios are the first's over the other's.
//!
//! Arguments: rounds (1,001 if not given), messages a round (1,000 if not given): a million
//! messages, in rounds short enough that most run undisturbed by other programs.

use charkhavo_host::timed::{cases, compare, controllers};

fn main() {
    let mut arguments = std::env::args().skip(1).map(|number| number.parse());
    let mut next = |otherwise| arguments.next().map_or(otherwise, |n| n.expect("a number"));
    let (rounds, messages) = (next(1_001), next(1_000));
    let controllers = controllers();
    let on = std::env::consts::ARCH;
    println!("nanoseconds a message on {on}, medians of {rounds} rounds of {messages} messages");
    print!("{:<40}{:>8}", "", controllers[0].name);
    for other in &controllers[1..] {
        print!("{:>10}{:>8}", other.name, "ratio");
    }
    println!();
    for case in cases() {
        let times = compare(&case, &controllers, rounds, messages);
        let ours = times[0].expect("ours is timed");
        print!("{:<40}{:>8.1}", case.name, ours);
        for other in &times[1..] {
            match other {
                Some(other) => print!("{:>10.1}{:>8.2}", other, ours / other),
                None => print!("{:>10}{:>8}", "differs", ""),
            }
        }
        println!();
    }
}
