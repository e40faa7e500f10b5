// Shortest replies about the bound of 4,096 tags, wide and deep, on jobs where what the program must print is counted and not searched.
// Argument: the program.

use sakonite_tests::counted::{Counted, Made, counted_jobs};
use sakonite_tests::harness::{Tally, answer, argument};
use sakonite_tests::solver::{Effect, effect_line};

// What is to be printed, and that it has the lengths for which the job was made.
fn judge(tally: &Tally, program: &str, Counted { name, job, effects, made_for }: &Counted) {
    for Made { code, from, to, tags, .. } in made_for {
        let found = effects[code][*from as usize].get(to);
        tally.check(found == Some(tags), || {
            format!("{name}: code {code} from {from} to {to}: {found:?} and not {tags}")
        });
    }
    let lines = |(&code, effects): (&u8, &Vec<Effect>)| -> String {
        (0..).zip(effects).map(|(q, effect)| effect_line(code, q, effect)).collect()
    };
    let listing: String = effects.iter().map(lines).collect();
    let found = answer(program, &job.file());
    tally.check(found.lines().count() == 1 + listing.lines().count(), || format!("{name}: {found}"));
    for (found, expected) in found.lines().zip(["verdict yes"].into_iter().chain(listing.lines())) {
        tally.equal(name, found, expected);
    }
}

fn main() {
    let program = argument(1, "the program to run");
    let tally = Tally::default();
    counted_jobs().iter().for_each(|counted| judge(&tally, &program, counted));
    tally.end()
}
