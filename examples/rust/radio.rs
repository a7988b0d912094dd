//! The radio of examples/c/radio.c, on the safe calls: it writes the same.
mod lingfurrow;

use lingfurrow::{Burst, Refusal, Session, ANSWER_BYTES, STATE_BYTES};

/// At least `ANSWER_BYTES`, or an answer could have no room even when all was sent.
const OUT_BYTES: usize = 40;
const _: () = assert!(OUT_BYTES >= ANSWER_BYTES);

/// What the radio delivers. One release comes in twice, the second time when a new run lies at its address.
const BURSTS: [&str; 6] = [
    "P\t24\t4\nA\t",
    "5\nA\t4\nA",
    "\t6\nR\t1\t0\t5\nA\t5\nR\t1\t0",
    "",
    "\t5\nA\t20\nT\t3\t10\t6\t2\nturn left\nR\t4\t0\t5\n",
    "R\t2\t6\t4",
];

/// A session, and answers that wait to be sent.
struct Radio<'a> {
    session: Session<'a>,
    out: [u8; OUT_BYTES],
    waiting: usize,
}

/// Tabs as spaces, line feeds as slashes.
fn show(what: &str, bytes: &[u8]) {
    let text = String::from_utf8_lossy(bytes).replace('\t', " ").replace('\n', "/");
    println!("{what} \"{text}\"");
}

impl<'a> Radio<'a> {
    fn start(state: &'a mut [u8]) -> Result<Self, Refusal> {
        let session = Session::start(state)?;
        println!("start: number 0");
        Ok(Radio { session, out: [0; OUT_BYTES], waiting: 0 })
    }

    fn send_waiting(&mut self) {
        show("  sent:", &self.out[..self.waiting]);
        self.waiting = 0;
    }

    /// Keeps the answers of a call; sends them, with those before, if the next one has no room.
    fn keep(&mut self, call: &str, done: Result<Burst, Refusal>) -> Result<Burst, Refusal> {
        let (number, taken, written) = match done {
            Ok(burst) => (if burst.more_room { 10 } else { 0 }, burst.taken, burst.written),
            Err(Refusal(number)) => (number, 0, 0),
        };
        println!("  {call}: number {number}, taken {taken}, written {written}");
        self.waiting += written;
        if number == 10 {
            self.send_waiting();
        }
        done
    }

    /// Hands a burst over until all of it is taken.
    fn deliver(&mut self, burst: &str) -> Result<(), Refusal> {
        let mut left = burst.as_bytes();
        show("comes in:", left);
        loop {
            let done = self.session.burst(left, &mut self.out[self.waiting..]);
            let Burst { taken, more_room, .. } = self.keep("burst", done)?;
            left = &left[taken..];
            if !more_room {
                return Ok(());
            }
        }
    }

    /// Nothing more comes: what there is of a last line is served.
    fn fall_silent(&mut self) -> Result<(), Refusal> {
        println!("the radio falls silent");
        loop {
            let done = self.session.end(&mut self.out[self.waiting..]);
            if !self.keep("end", done)?.more_room {
                break;
            }
        }
        self.send_waiting();
        Ok(())
    }
}

/// The state is no session's any more, and all is refused until a start call. The new pool's tickets begin above those
/// that were given out, so that no earlier release fits.
fn stray_write(state: &mut [u8]) -> Result<(), Refusal> {
    state[STATE_BYTES - 1] ^= 1;
    println!("a stray write");
    let mut struck = Radio { session: Session::resume(state), out: [0; OUT_BYTES], waiting: 0 };
    let _ = struck.deliver("A\t2\n");
    let mut radio = Radio::start(state)?;
    radio.deliver("P\t24\t4\t5\nA\t5\nR\t1\t0\t5\n")?;
    radio.fall_silent()
}

fn main() -> Result<(), Refusal> {
    let mut state = vec![0; STATE_BYTES];
    let mut radio = Radio::start(&mut state)?;
    for burst in BURSTS {
        radio.deliver(burst)?;
    }
    radio.fall_silent()?;
    stray_write(&mut state)
}
