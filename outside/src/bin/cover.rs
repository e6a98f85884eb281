//! Prints what N generated cases from seed S reach, judged by the plain checker alone: `cover N S`.

use outside::{coverage::Coverage, generate, plain};

fn main() {
    let mut numbers = std::env::args().skip(1).map(|a| a.parse::<u64>().unwrap_or(0));
    let (n, seed) = (numbers.next().unwrap_or(20_000), numbers.next().unwrap_or(1));
    let mut c = Coverage::default();
    for index in 0..n {
        let mut case = generate::case(seed, index);
        let verdict = plain::check(&case.job, &mut case.work, &mut case.list, case.rgb);
        c.add(case.kind, &case.job, case.rgb, &verdict);
    }
    print!("{}", c.table());
    println!("gaps: {:?}", c.gaps());
}
