// Every refusal that can come out of the five entries, one by one and two at a time, and the bytes lent afterwards; 21 cannot come out
// through a history. Argument: `alone`, to leave out the pairs of faults in a file and most of the longest losing replies.

use sakonite_tests::counted::counted_jobs;
use sakonite_tests::faults::{self, Faulty, roomy, with_note};
use sakonite_tests::harness::Tally;
use sakonite_tests::jobs::{Form, Target, all_forms};
use sakonite_tests::library::{self, Bytes};
use sakonite_tests::marked::{self, marked};
use sakonite_tests::numbers::*;
use sakonite_tests::refused::{fetch_after, reads, refused};
use sakonite_tests::solver;
use sakonite_tests::vocabulary::{DATE, GETPLACE, NOTE};
use sakonite_tests::words::{empties, tower};

const POSITIONS: usize = 200_000;

// A file and a history with the number due from `advice`, and from `finished` and `losing` in a buffer of some length; 0 for an answer.
struct Case<'a> {
    name: String,
    file: &'a [u8],
    history: Vec<u8>,
    length: usize,
    advice: u32,
    finished: u32,
    losing: u32,
}

// An entry that writes.
type Entry = fn(&Bytes, &Bytes, &mut [u8]) -> Option<u32>;

// Of the record of the job with a note.
const RECORD_TAGS: usize = 6;

fn number(answer: u32) -> u32 {
    if (FILE_SIZE..FINISHED).contains(&answer) { answer } else { 0 }
}

// Both ways of lending, and the second solver's word on it.
fn judge(tally: &Tally, case: &Case) {
    let Case { name, file, history, length, .. } = case;
    let by_solver = solver::advice_entry(file, history, POSITIONS).expect("a short play");
    tally.check(number(by_solver) == case.advice, || format!("{name}: the second solver's advice is {by_solver}"));
    let lent: Vec<u8> = (0..*length).map(|i| i as u8 | 0x80).collect();
    let mut expected = lent.clone();
    let due = solver::finished_entry(file, history, &mut expected);
    tally.check(number(due) == case.finished, || format!("{name}: the second solver's finished is {due}"));
    tally.check(due >= FINISHED || expected == lent, || format!("{name}: the second solver wrote"));
    let mut written = lent.clone();
    let losing = solver::losing_entry(file, history, &mut written, POSITIONS).expect("a short play");
    tally.check(number(losing) == case.losing, || format!("{name}: the second solver's losing is {losing}"));
    for lend in [Bytes::heap, Bytes::page] {
        let (file, history) = (lend(file), lend(history));
        let advice = library::advice(&file, &history);
        tally.check(advice == by_solver, || format!("{name}: advice is {advice}, not {by_solver}"));
        let rows: [(_, Entry, _, _); 2] =
            [("finished", library::finished, due, &expected), ("losing", library::losing, losing, &written)];
        for (called, entry, due, left) in rows {
            let mut buffer = lent.clone();
            let found = entry(&file, &history, &mut buffer);
            tally.check(found == Some(due), || format!("{name}: {called} is {found:?}, not {due}"));
            tally.check(buffer == *left, || format!("{name}: {called} leaves {buffer:?}, not {left:?}"));
        }
    }
}

// A refused file is refused by all five, whatever the history and the buffer.
fn judge_file(tally: &Tally, faulty: &Faulty, histories: &[Vec<u8>]) {
    let Faulty { name, file, number } = faulty;
    for lend in [Bytes::heap, Bytes::page] {
        let lent = lend(file);
        for (entry, found) in [("check", library::check(&lent)), ("verdict", library::verdict(&lent))] {
            tally.check(found == *number, || format!("{name}: {entry} is {found}, not {number}"));
        }
    }
    for history in histories {
        let (name, history) = (format!("{name}, history {history:?}"), history.clone());
        judge(tally, &Case { name, file, history, length: 5, advice: *number, finished: *number, losing: *number });
    }
}

// Histories on the job with a note.
fn history_cases(file: &[u8]) -> Vec<Case<'_>> {
    // Moves that `advice` accepts lead to the record's end, or to where nothing can be fetched.
    let case = |name: &str, history: &[u8], length, advice, finished| {
        let all_used = solver::moves(history).is_ok_and(|moves| moves.len() == RECORD_TAGS);
        let losing = if advice != ACCEPTED {
            advice
        } else if all_used {
            AT_END
        } else {
            NO_FETCH
        };
        let (name, history) = (name.to_string(), history.to_vec());
        Case { name, file, history, length, advice, finished, losing }
    };
    let mut all = vec![];
    for refused in refused() {
        let (name, length, finished) = (refused.name, refused.length, refused.numbers[0]);
        let history = solver::history(&refused.moves);
        let advice = if finished == BUFFER { ACCEPTED } else { finished };
        all.push(case(name, &history, length, advice, finished));
        // What is no list of moves is said before any move is judged.
        for tail in [vec![0x1f], vec![MOVE_FETCH, 3, 0, DATE]] {
            let longer = [&history[..], &tail].concat();
            all.push(case(&format!("{name}, then no move"), &longer, length, HISTORY, HISTORY));
        }
        // The first refused move decides, whatever comes after it.
        for (later, more) in [("reads", reads(9)), ("a fetch", fetch_after(0, &[32]))] {
            let longer = [history.clone(), solver::history(&more)].concat();
            let advice = match solver::advice_entry(file, &longer, POSITIONS) {
                Some(said) if finished == BUFFER => number(said),
                _ => finished,
            };
            all.push(case(&format!("{name}, then {later}"), &longer, length, advice, finished));
        }
    }
    // 24 is said of the first read, and advice, which has no buffer, goes on to the fetch.
    all.push(case("24 and then 23", &solver::history(&fetch_after(1, &[])), 0, NO_FETCH, BUFFER));
    let no_moves: [(&str, &[u8]); 10] = [
        ("byte 0", &[0]),
        ("byte 0x1f", &[0x1f]),
        ("byte 0x22", &[0x22]),
        ("byte 0xff after a read", &[MOVE_READ, 0xff]),
        ("no length", &[MOVE_FETCH]),
        ("half a length", &[MOVE_FETCH, 0]),
        ("no reply", &[MOVE_FETCH, 1, 0]),
        ("a byte of the reply missing", &[MOVE_READ, MOVE_FETCH, 2, 0, DATE]),
        ("256 for 1", &[MOVE_READ, MOVE_FETCH, 0, 1, DATE]),
        ("65,535 bytes missing", &[MOVE_FETCH, 0xff, 0xff]),
    ];
    for (name, history) in no_moves {
        for length in [0, 9] {
            all.push(case(&format!("{name}, buffer {length}"), history, length, HISTORY, HISTORY));
        }
    }
    for (name, moves, length) in [
        ("nothing done", vec![], 0),
        ("all read", reads(6), 6),
        ("a date fetched", fetch_after(5, &empties(&[DATE])), 5),
        ("a note fetched in a long buffer", fetch_after(5, &empties(&[NOTE])), 300),
    ] {
        all.push(case(name, &solver::history(&moves), length, ACCEPTED, ACCEPTED));
    }
    // Where the getplace closes, a date loses the play, or a note, which comes later.
    for (length, finished, losing) in [
        (0, BUFFER, LOSING_BUFFER),
        (1, BUFFER, LOSING_BUFFER),
        (2, BUFFER, ACCEPTED),
        (3, BUFFER, ACCEPTED),
        (300, ACCEPTED, ACCEPTED),
    ] {
        let name = format!("before the last tag, buffer {length}");
        all.push(Case { losing, ..case(&name, &[MOVE_READ; RECORD_TAGS - 1], length, ACCEPTED, finished) });
    }
    all
}

// Sizes of replies at their bounds. The form has no longest reply, so the second solver has no advice here.
fn sizes(tally: &Tally) {
    let file = Bytes::page(&roomy().file());
    let deep = tower(DATE, DEEPEST_REPLY);
    for (name, reply, due) in [
        ("64 deep", deep.clone(), ACCEPTED),
        ("65 deep", tower(DATE, DEEPEST_REPLY + 1), REPLY),
        ("4,096 tags", empties(&[DATE; MOST_TAGS / 2]), ACCEPTED),
        ("4,096 tags, 64 deep", deep.repeat(MOST_TAGS / deep.len()), ACCEPTED),
        ("4,098 tags", empties(&[DATE; MOST_TAGS / 2 + 1]), REPLY),
        ("no tag", vec![], ACCEPTED),
    ] {
        let history = Bytes::page(&solver::history(&fetch_after(5, &reply)));
        let advice = library::advice(&file, &history);
        tally.check(number(advice) == due, || format!("{name}: advice is {advice}"));
        let whole = [empties(&[NOTE]), reply].concat();
        let room = whole.len().max(5);
        for length in [4, room - 1, room, room + 1] {
            let mut left = vec![0xee; length];
            let mut buffer = left.clone();
            let found = library::finished(&file, &history, &mut buffer);
            let number = if length < 5 || (due == ACCEPTED && length < room) { BUFFER } else { due };
            let answer = if number == ACCEPTED {
                left[..5].copy_from_slice(&roomy().record[..5]);
                left[..whole.len()].copy_from_slice(&whole);
                FINISHED + whole.len() as u32
            } else {
                number
            };
            tally.check(found == Some(answer), || format!("{name} in {length} bytes: {found:?}, not {answer}"));
            tally.check(buffer == left, || format!("{name} in {length} bytes: other bytes"));
        }
    }
}

// A finished part of more than 65,536 tags, on a thread with no more stack than the header asks for, and a large file.
fn long_part() -> Result<(), String> {
    const ELEMENTS: usize = MOST_TAGS / 2;
    const FETCHED: usize = 20;
    let mut job = roomy();
    job.target = Target::resting(MOST_STATES);
    job.forms = all_forms(&Form::largest());
    job.forms.insert(GETPLACE, Form::any(DATE));
    job.record = empties(&[GETPLACE; ELEMENTS]);
    let deep = tower(DATE, DEEPEST_REPLY);
    let reply = deep.repeat(MOST_TAGS / deep.len());
    let read = vec![MOVE_READ; 2 * (ELEMENTS - FETCHED)];
    let history = [solver::history(&fetch_after(1, &reply)).repeat(FETCHED), read].concat();
    let (file, history) = (Bytes::page(&job.file()), Bytes::page(&history));
    let whole = [reply.repeat(FETCHED), empties(&[GETPLACE; ELEMENTS - FETCHED])].concat();
    let mut buffer = vec![0xee; whole.len() + 1];
    let found = library::finished(&file, &history, &mut buffer);
    if found != Some(FINISHED + whole.len() as u32) || buffer != [&whole[..], &[0xee]].concat() {
        return Err(format!("{found:?} for {} tags", whole.len()));
    }
    let advice = library::advice(&file, &history);
    let yes = library::verdict(&file);
    if (advice, yes) != (OUTSIDE, 0) {
        return Err(format!("advice {advice}, verdict {yes} where no state is accepting"));
    }
    Ok(())
}

// The bytes of stack that the header asks for; more for the losing reply, which tests/hosts tries.
fn stack() -> usize {
    let header = include_str!("../../../include/sakonite.h");
    let (before, _) = header.split_once(" KB of stack").expect("a number of KB");
    let number = before.rsplit(' ').next().and_then(|word| word.parse::<usize>().ok());
    number.expect("a number of KB") << 10
}

// Slices of length 0, with a pointer to nothing and with a null pointer.
fn empty_slices(tally: &Tally) {
    let plain = with_note().file();
    let file = Bytes::page(&plain);
    let check = |name: &str, found: u32, due: u32| tally.check(found == due, || format!("{name}: {found}"));
    for empty in &[Bytes::Null, Bytes::heap(&[]), Bytes::page(&[])] {
        check("check of nothing", library::check(empty), FILE_SIZE);
        check("verdict on nothing", library::verdict(empty), FILE_SIZE);
        check("advice on nothing", library::advice(empty, empty), FILE_SIZE);
        check("finished part of nothing", library::finished_in_nothing(empty, empty), FILE_SIZE);
        check("losing reply for nothing", library::losing_in_nothing(empty, empty), FILE_SIZE);
        let start = solver::advice_entry(&plain, &[], POSITIONS).expect("a short play");
        check("advice at the start", library::advice(&file, empty), start);
        check("finished part at the start", library::finished_in_nothing(&file, empty), FINISHED);
        check("finished part, no buffer", library::finished_in_nothing(&file, &Bytes::heap(&[MOVE_READ])), BUFFER);
        check("losing reply at the start", library::losing_in_nothing(&file, empty), NO_FETCH);
    }
    // Without a buffer: none in P5; the empty reply in P6, and a date, which has no room.
    for (name, reads, due) in [
        ("P5", 0, NO_FETCH),
        ("P5", 1, NONE),
        ("P5", 3, LOSING_BUFFER),
        ("P5", 4, AT_END),
        ("P6", 1, LOSING_BUFFER),
        ("P6", 3, LOSING),
    ] {
        let (file, history) = (Bytes::page(&marked::job(name).file()), Bytes::heap(&vec![MOVE_READ; reads]));
        let title = format!("{name}: losing reply after {reads} reads, no buffer");
        check(&title, library::losing_in_nothing(&file, &history), due);
        let found = library::losing(&file, &history, &mut []);
        tally.check(found == Some(due), || format!("{title}: {found:?}"));
    }
}

// Losing replies about the bound of 4,096 tags, in buffers about their length: 23 before 25, and 25 before 26. Put behind the history they
// lead outside the form, unless they are too large to arrive.
fn counted_replies(tally: &Tally, with_all: bool) {
    for counted in counted_jobs() {
        let some = if with_all { counted.made_for.len() } else { 1 };
        for made in &counted.made_for[..some] {
            let name = format!("{}: {} tags", counted.name, made.tags);
            let (file, before, at) =
                (Bytes::page(&counted.lost_by(made).file()), Bytes::heap(&[]), Bytes::heap(&[MOVE_READ]));
            let about = [made.tags, made.tags.saturating_sub(1), 0, made.tags + 1, MOST_TAGS - 1, MOST_TAGS];
            for &length in if with_all { &about[..] } else { &about[..1] } {
                let lent: Vec<u8> = (0..length).map(|i| i as u8 | 0x80).collect();
                let (due, left) = match made.loses(length) {
                    Ok(reply) => (LOSING + made.tags as u32, [reply, &lent[made.tags..]].concat()),
                    Err(number) => (number, lent.clone()),
                };
                let mut buffer = lent.clone();
                let found = library::losing(&file, &at, &mut buffer);
                tally.check(found == Some(due), || format!("{name} in {length} bytes: {found:?}, not {due}"));
                tally.check(buffer == left, || format!("{name} in {length} bytes: other bytes"));
            }
            let found = library::losing_in_nothing(&file, &before);
            tally.check(found == NO_FETCH, || format!("{name}, before the element: {found}"));
            let after = Bytes::page(&solver::history(&fetch_after(1, &made.reply)));
            let due = if solver::small_and_nested(&made.reply) { OUTSIDE } else { REPLY };
            let found = library::advice(&file, &after);
            tally.check(found == due, || format!("{name}, fetched: advice is {found}"));
            // The moves are judged before the losing reply is.
            let due = if due == REPLY { REPLY } else { AT_END };
            let found = library::losing_in_nothing(&file, &after);
            tally.check(found == due, || format!("{name}, fetched: losing is {found}"));
        }
    }
}

fn marked_plays(tally: &Tally) {
    for p in marked() {
        let file = Bytes::page(&p.job.file());
        let found = library::verdict(&file);
        tally.check(found == p.yes as u32, || format!("{}: verdict is {found}", p.name));
        tally.check(library::check(&file) == ACCEPTED, || format!("{}: refused", p.name));
        if p.name == "P8" {
            let found = library::advice(&file, &Bytes::page(&[MOVE_READ; 2]));
            tally.check(found == READ, || format!("P8: advice at the inner closing tag is {found}"));
        }
    }
}

fn main() {
    let tally = Tally::default();
    let with_pairs = std::env::args().nth(1).is_none();
    empty_slices(&tally);
    marked_plays(&tally);
    sizes(&tally);
    counted_replies(&tally, with_pairs);
    let thread = std::thread::Builder::new().stack_size(stack()).spawn(long_part).expect("a thread");
    let outcome = thread.join().expect("it does not panic");
    tally.check(outcome.is_ok(), || format!("long finished part: {outcome:?}"));
    history_cases(&with_note().file()).iter().for_each(|case| judge(&tally, case));

    // Every fault of a file with one history of each number, and with none.
    let mut histories = vec![vec![], vec![MOVE_READ], vec![0x22]];
    histories.extend(refused().iter().step_by(3).map(|refused| solver::history(&refused.moves)));
    let (conditions, more) = (faults::conditions(), faults::more_faults());
    for (i, fault) in conditions.iter().chain(&more).enumerate() {
        let some = if with_pairs && i < conditions.len() { &histories[..] } else { &histories[2..3] };
        judge_file(&tally, &faults::alone(fault), some);
    }
    if with_pairs {
        faults::pairs(&conditions).iter().for_each(|faulty| judge_file(&tally, faulty, &histories[..1]));
    }
    tally.end()
}
