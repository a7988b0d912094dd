//! The gateway of examples/c/gateway.c, on the safe calls: it writes the same.
mod lingfurrow;

use lingfurrow::{copy_table, Answer, Pool, Refusal, Request, Run, SegmentPool, TreeHead, TreePool};
use std::fmt::Display;

const RECORDS: usize = 4;
const ARENA_WORDS: usize = 24;
const SEGMENTS: usize = 4;
const LONG_WORDS: usize = 128;
const LARGE_WORDS: usize = 1_048_576;
const LARGE_RECORDS: usize = 256;
const MOST_PLACES: usize = 1 + SEGMENTS.ilog2() as usize + ARENA_WORDS / SEGMENTS;

/// The parties: each firm's calls pass its own.
const LAUNDRY: u32 = 1;
const HEATING: u32 = 2;

/// What comes in: a command of some words for a dryer, or the radio's release of the command that came as the n-th.
enum Event {
    Command { dryer: u16, words: u32 },
    Release { nth: usize },
}

const EVENTS: [Event; 9] = [
    Event::Command { dryer: 4, words: 5 },
    Event::Command { dryer: 9, words: 4 },
    Event::Command { dryer: 2, words: 6 },
    Event::Release { nth: 1 },
    Event::Command { dryer: 9, words: 5 }, // lies where the first command lay
    Event::Release { nth: 1 },             // comes in again, over the spare antenna
    Event::Command { dryer: 7, words: 20 },
    Event::Release { nth: 3 },
    Event::Release { nth: 2 },
];

fn told(result: Result<Run, Refusal>) -> String {
    match result {
        Ok(run) => format!("done, ticket {} at {}, words {}", run.ticket, run.address, run.words),
        Err(refusal) => format!("refused, {}: {}", refusal.0, refusal),
    }
}

fn print_look<P: Pool>(pool: &P, party: u32, run: Run)
where
    P::Word: Display + From<u16>,
{
    print!("    look at ticket {}:", run.ticket);
    for word in pool.look(party, run, &[P::Word::from(0)]) {
        print!(" {word}");
    }
    println!();
}

fn command<P: Pool>(pool: &mut P, dryer: u16, words: u32) -> Result<Run, Refusal>
where
    P::Word: From<u16>,
{
    let granted = pool.allocate(LAUNDRY, words);
    println!("  command for dryer {dryer}, words {words}: {}", told(granted));
    write(pool, LAUNDRY, granted?, dryer)?;
    granted
}

fn write<P: Pool>(pool: &mut P, party: u32, run: Run, dryer: u16) -> Result<(), Refusal>
where
    P::Word: From<u16>,
{
    for (i, word) in (0..).zip(pool.words_of(party, run)?) {
        *word = P::Word::from(100 * dryer + i);
    }
    Ok(())
}

/// A release as the radio names it. Refused, it leaves the command that was stored last as it is.
fn radio_release<P: Pool>(pool: &mut P, named: Run, last: Run)
where
    P::Word: Display + From<u16>,
{
    let result = pool.release(LAUNDRY, named);
    let Run { ticket, address, words } = named;
    println!("  release of ticket {ticket} at {address}, words {words}: {}", told(result));
    if result.is_err() {
        print_look(pool, LAUNDRY, named);
        print_look(pool, LAUNDRY, last);
    }
}

/// Four requests handed over as one list: two new commands, the last command's release and a replay.
fn burst<P: Pool>(pool: &mut P, first: Run, last: Run) -> Result<(), Refusal> {
    let requests = [Request::allocate(3), Request::release(last), Request::allocate(8), Request::release(first)];
    let mut answers = [Answer::default(); 4];
    pool.list(LAUNDRY, &requests, &mut answers)?;
    println!("  list of {} requests", requests.len());
    for (Request([kind, x, y, z]), answer) in requests.iter().zip(answers) {
        println!("    {kind} {x} {y} {z}: {}", told(answer.result()));
    }
    Ok(())
}

/// What comes in up to the power loss. Hands back the run that was granted first.
fn serve<P: Pool>(pool: &mut P) -> Result<Run, Refusal>
where
    P::Word: Display + From<u16>,
{
    let mut runs = Vec::new();
    let mut last = Run::default();
    for event in &EVENTS {
        match *event {
            Event::Command { dryer, words } => {
                let granted = command(pool, dryer, words);
                last = granted.unwrap_or(last);
                runs.push(granted.unwrap_or_default());
            }
            Event::Release { nth } => radio_release(pool, runs[nth - 1], last),
        }
    }
    burst(pool, runs[0], last)?;
    Ok(runs[0])
}

/// The pool was formatted again, with the next ticket as firmware stored it, so that no earlier ticket is given again:
/// the release that fitted before comes in once more and is refused, though address and words fit the new command.
fn restarted<P: Pool>(pool: &mut P, first: u32, earlier: Run) -> Result<(), Refusal>
where
    P::Word: Display + From<u16>,
{
    println!("  restart, first ticket {first}");
    let run = command(pool, 4, earlier.words)?;
    radio_release(pool, earlier, run);
    two_firms(pool)
}

/// The heating firm takes a run of its own. The laundry is told of its ticket what it would be told of a dead one,
/// though it names the run rightly; and number 256 is no firm's.
fn two_firms<P: Pool>(pool: &mut P) -> Result<(), Refusal>
where
    P::Word: Display + From<u16>,
{
    let granted = pool.allocate(HEATING, 2);
    println!("  order of the heating firm, words 2: {}", told(granted));
    let heat = granted?;
    write(pool, HEATING, heat, 21)?;
    println!("  the laundry's release of it: {}", told(pool.release(LAUNDRY, heat)));
    print_look(pool, LAUNDRY, heat);
    print_look(pool, HEATING, heat);
    println!("  a release of it by 256: {}", told(pool.release(256, heat)));
    println!("  the heating firm's release of it: {}", told(pool.release(HEATING, heat)));
    Ok(())
}

/// The segment pool says how far each search for room went.
fn count_places(pool: &mut SegmentPool) {
    for words in 2..4 {
        let (_, places) = pool.allocate_counted(LAUNDRY, words);
        println!("  search for room, words {words}: places {places}, at most {MOST_PLACES}");
    }
}

/// The tree pool in one of its forms.
fn tree_pool(form: u32) -> Result<(), Refusal> {
    let mut arena = [0; ARENA_WORDS];
    let mut table = [0; 4 * RECORDS];
    let mut pool = TreePool::format(form, &mut arena, &mut table, 1)?;
    println!("tree pool, form {form}, words {ARENA_WORDS}, records {RECORDS}");
    let earlier = serve(&mut pool)?;
    let stored = pool.head().next;
    restarted(&mut TreePool::format(form, &mut arena, &mut table, stored)?, stored, earlier)
}

fn segment_pool() -> Result<(), Refusal> {
    let mut arena = [0; ARENA_WORDS];
    let mut table = [0; 4 * RECORDS];
    let mut index = [0; 3 * SEGMENTS];
    let mut pool = SegmentPool::format(&mut arena, &mut table, SEGMENTS as u32, &mut index, 1)?;
    println!("segment pool, words {ARENA_WORDS}, records {RECORDS}");
    let earlier = serve(&mut pool)?;
    let stored = pool.head();
    let mut pool = SegmentPool::format(&mut arena, &mut table, SEGMENTS as u32, &mut index, stored)?;
    restarted(&mut pool, stored, earlier)?;
    count_places(&mut pool);
    Ok(())
}

/// A laundry with four hundred dryers: form 2 has room for it, form 1 has not.
fn large_pool() {
    let mut arena = vec![0; LARGE_WORDS];
    let mut table = vec![0; 4 * LARGE_RECORDS];
    for form in 0..3 {
        print!("form {form}, words {LARGE_WORDS}, records {LARGE_RECORDS}: ");
        match TreePool::format(form, &mut arena, &mut table, 1) {
            Err(refusal) => println!("{refusal}"),
            Ok(mut pool) => {
                println!("done");
                for words in 400_000..400_003 {
                    println!("  words {words}: {}", told(pool.allocate(LAUNDRY, words)));
                }
            }
        }
    }
}

/// A pool of an earlier firmware, its table of three words to a record: ticket 1 at 0 and ticket 2 at 6, both of the
/// laundry. With the table copied, the pool goes on.
fn old_table() -> Result<(), Refusal> {
    let mut arena = [0; ARENA_WORDS];
    let old = [1, 0, 5, 2, 6, 4, 0, 0, 0, 0, 0, 0];
    let mut table = [0; 4 * RECORDS];
    let head = TreeHead { root: 6, next: 3, form: 1 }; // one free block, of seven cells from cell 5 on
    arena[10] = 7;
    copy_table(&old, &mut table)?;
    println!("table of {RECORDS} old records: done");
    let pool = TreePool::resume(head, &mut arena, &mut table);
    for party in LAUNDRY..=HEATING {
        let named = Run { ticket: 2, address: 6, words: 4 };
        println!("  find of ticket 2 by party {party}: {}", told(pool.find(party, named)));
    }
    Ok(())
}

/// A message is taken at 64 words before its length is known, and cut to the 10 that it has. What lies behind them is
/// free for the next one. From then on the run is named with 10 words: the release with 64 that is still under way is
/// refused, and the message stays.
fn cut<P: Pool>(pool: &mut P) -> Result<(), Refusal> {
    let taken = pool.allocate(LAUNDRY, 64);
    println!("  message, words 64: {}", told(taken));
    let kept = pool.trim(LAUNDRY, taken?, 10);
    println!("  cut to 10: {}", told(kept));
    println!("  message, words 100: {}", told(pool.allocate(LAUNDRY, 100)));
    println!("  release with 64: {}", told(pool.release(LAUNDRY, taken?)));
    println!("  release with 10: {}", told(pool.release(LAUNDRY, kept?)));
    Ok(())
}

/// On both pools.
fn cut_message() -> Result<(), Refusal> {
    let mut table = [0; 4 * RECORDS];
    println!("tree pool, form 1, words {LONG_WORDS}, records {RECORDS}");
    cut(&mut TreePool::format(1, &mut [0; LONG_WORDS], &mut table, 1)?)?;
    println!("segment pool, words {LONG_WORDS}, records {RECORDS}");
    let (mut arena, mut index) = ([0; LONG_WORDS], [0; 3 * SEGMENTS]);
    cut(&mut SegmentPool::format(&mut arena, &mut table, SEGMENTS as u32, &mut index, 1)?)
}

fn main() -> Result<(), Refusal> {
    tree_pool(1)?;
    tree_pool(2)?;
    tree_pool(3)?;
    segment_pool()?;
    large_pool();
    old_table()?;
    cut_message()
}
