//! The product, asked over pipes. The program that answers is `product.c`, which says what requests
//! and answers look like; it links the product's library, which is x86-64 code, as this program
//! need not be.

use crate::answer::Refusal;
use crate::fast_run::Ran;
use crate::program;
use crate::run_call::{Outcome, RunCall};
use std::io::{ErrorKind, Read, Write};
use std::process::{Child, Stdio};
use std::sync::mpsc::{self, Receiver, RecvTimeoutError, Sender, SyncSender};
use std::thread;
use std::time::Duration;

/// How many requests are sent before their answers are read.
const BATCH: usize = 256;
/// How long the product may say nothing.
const PATIENCE: Duration = Duration::from_secs(30);
const ANSWER_BYTES: usize = 16;
pub const RAN_BYTES: usize = ANSWER_BYTES + 4 * 192 + 3 * 8;
/// As many bytes of answers are read at once, and so many parts may wait to be taken.
const PART_BYTES: usize = 1 << 16;
const PARTS: usize = 64;

/// The names of kieferntuch_read, kieferntuch_plan and kieferntuch_run.
const READ: u8 = b'r';
const PLAN: u8 = b'p';
const RUN: u8 = b'u';
/// Flags: none, or lend the table, the sheet or the trace, or the arrivals by a null pointer.
const PLAIN: u8 = 0;
const NULL_TABLE: u8 = 1;
const NULL_OUT: u8 = 2;
const NULL_ARRIVALS: u8 = 4;

/// The product's process. A thread writes the requests and another reads the answers, so that a
/// product that stops reading, or answers too much or too little, is seen and not waited for.
pub struct Product {
    process: Child,
    /// None once there are no more.
    requests: Option<Sender<Vec<u8>>>,
    /// Parts of answers, cut anywhere; closed when the product has ended its output.
    parts: Receiver<Vec<u8>>,
    /// What has been heard and not taken yet.
    heard: Vec<u8>,
}

/// What kieferntuch_plan is handed.
#[derive(Clone, Debug)]
pub struct Call {
    pub table: Vec<u8>,
    pub at: usize,
    pub sheet: Vec<u8>,
    /// What is empty may be lent by a null pointer.
    pub null_table: bool,
    pub null_sheet: bool,
}

impl Product {
    pub fn start(command: &str) -> Result<Product, String> {
        let mut process = program::command(command)?
            .stdin(Stdio::piped())
            .stdout(Stdio::piped())
            .spawn()
            .map_err(|why| why.to_string())?;
        let (requests, to_send) = mpsc::channel();
        let (to_hear, parts) = mpsc::sync_channel(PARTS);
        let (input, output) = (process.stdin.take(), process.stdout.take());
        thread::spawn(move || input.map(|pipe| send(pipe, to_send)));
        thread::spawn(move || output.map(|pipe| hear(pipe, to_hear)));
        Ok(Product {
            process,
            requests: Some(requests),
            parts,
            heard: Vec::new(),
        })
    }

    /// Asks for each of the tables to be read; as many answers follow.
    pub fn ask_to_read(&mut self, tables: &[Vec<u8>]) {
        let frames = tables.iter().flat_map(|table| frame(READ, PLAIN, table));
        self.ask(frames.collect());
    }

    /// Asks for the empty table to be read, lent by a null pointer; one answer follows.
    pub fn ask_to_read_null(&mut self) {
        self.ask(frame(READ, NULL_TABLE, &[]));
    }

    /// Makes each of the calls; as many answers follow, each with its sheet.
    pub fn ask_to_plan(&mut self, calls: &[Call]) {
        self.ask(calls.iter().flat_map(plan_frame).collect());
    }

    /// Makes each of the calls; as many answers follow, each with its trace.
    pub fn ask_to_run(&mut self, calls: &[RunCall]) {
        self.ask(calls.iter().flat_map(run_frame).collect());
    }

    /// Asks about all of these in batches, and looks at each when its answers come next, up to the
    /// first failure. The product has its next batch while one is looked at.
    pub fn in_batches<T>(
        &mut self,
        mut all: impl Iterator<Item = T>,
        ask: impl Fn(&mut Product, &[T]),
        mut look: impl FnMut(&mut Product, &T) -> Result<(), String>,
    ) -> Result<(), String> {
        let mut asked: Vec<T> = Vec::new();
        loop {
            let next: Vec<T> = all.by_ref().take(BATCH).collect();
            ask(self, &next);
            for one in &asked {
                look(self, one)?;
            }
            if next.is_empty() {
                return Ok(());
            }
            asked = next;
        }
    }

    fn ask(&mut self, frames: Vec<u8>) {
        if let Some(requests) = &self.requests {
            // Where nobody takes it any more, the answer is missing, and that is seen.
            let _ = requests.send(frames);
        }
    }

    /// The next answer: no refusal, or the refusal as the product puts it, whatever stands in it.
    /// An error if the product does not answer.
    pub fn answer(&mut self) -> Result<Result<(), Refusal>, String> {
        let bytes = self.take(ANSWER_BYTES)?;
        Ok(match [0, 4, 8, 12].map(|at| number_32(&bytes, at)) {
            [0, 0, 0, 0] => Ok(()),
            [number, names, mark, value] => Err(Refusal {
                number,
                names,
                mark,
                value,
            }),
        })
    }

    /// The sheet behind an answer, of so many bytes.
    pub fn sheet(&mut self, length: usize) -> Result<Vec<u8>, String> {
        self.take(length)
    }

    /// The answer to this call, whatever stands in it, and the trace behind it.
    pub fn ran(&mut self, call: &RunCall) -> Result<Outcome, String> {
        let ran = read_ran(&self.take(RAN_BYTES)?);
        Ok((ran, self.take(call.trace_and_guard())?))
    }

    /// The next bytes of answers.
    fn take(&mut self, count: usize) -> Result<Vec<u8>, String> {
        while self.heard.len() < count {
            match self.parts.recv_timeout(PATIENCE) {
                Ok(part) => self.heard.extend(part),
                Err(RecvTimeoutError::Disconnected) => return Err(self.ended(count)),
                Err(RecvTimeoutError::Timeout) => return Err(format!("no answer in {PATIENCE:?}")),
            }
        }
        let rest = self.heard.split_off(count);
        Ok(std::mem::replace(&mut self.heard, rest))
    }

    /// No more requests: the product has to end in success, and to have said nothing more.
    pub fn finish(mut self) -> Result<(), String> {
        self.requests = None;
        if self.heard.is_empty() {
            match self.parts.recv_timeout(PATIENCE) {
                Ok(part) => self.heard = part,
                Err(RecvTimeoutError::Disconnected) => return self.in_success(),
                Err(RecvTimeoutError::Timeout) => return Err(format!("no end in {PATIENCE:?}")),
            }
        }
        Err("an answer that nobody asked for".to_string())
    }

    fn in_success(&mut self) -> Result<(), String> {
        match self.ending().as_str() {
            "exit status: 0" => Ok(()),
            other => Err(format!("the end ({other})")),
        }
    }

    fn ended(&mut self, wanted: usize) -> String {
        let (part, ending) = (self.heard.len(), self.ending());
        format!("{part} of {wanted} bytes, and then the end ({ending})")
    }

    /// How the process ended; it has a second to do so.
    fn ending(&mut self) -> String {
        for _ in 0..100 {
            if let Ok(Some(status)) = self.process.try_wait() {
                return status.to_string();
            }
            thread::sleep(Duration::from_millis(10));
        }
        "still running".to_string()
    }
}

impl Drop for Product {
    /// Leaves no process behind.
    fn drop(&mut self) {
        let _ = self.process.kill();
        let _ = self.process.wait();
    }
}

/// Writes requests until there are no more or the pipe breaks; the pipe is closed then.
fn send(mut pipe: impl Write, requests: Receiver<Vec<u8>>) {
    for frames in requests {
        if pipe.write_all(&frames).is_err() {
            return;
        }
    }
}

/// Hands on answers until there are no more or nobody wants them.
fn hear(mut pipe: impl Read, parts: SyncSender<Vec<u8>>) {
    let mut bytes = vec![0; PART_BYTES];
    loop {
        match pipe.read(&mut bytes) {
            Err(why) if why.kind() == ErrorKind::Interrupted => {}
            // A pipe that cannot be read has ended.
            Ok(0) | Err(_) => return,
            Ok(count) if parts.send(bytes[..count].to_vec()).is_err() => return,
            Ok(_) => {}
        }
    }
}

/// A function's name, its flags, and the table that it is lent.
fn frame(function: u8, flags: u8, table: &[u8]) -> Vec<u8> {
    [&[function, flags], number(table.len()).as_slice(), table].concat()
}

fn plan_frame(call: &Call) -> Vec<u8> {
    let null_table = u8::from(call.null_table) * NULL_TABLE;
    let null_sheet = u8::from(call.null_sheet) * NULL_OUT;
    let mut bytes = frame(PLAN, null_table | null_sheet, &call.table);
    bytes.extend(number(call.at));
    bytes.extend(number(call.sheet.len()));
    bytes.extend(&call.sheet);
    bytes
}

fn run_frame(call: &RunCall) -> Vec<u8> {
    let null_table = u8::from(call.null_table()) * NULL_TABLE;
    let null_trace = u8::from(call.null_trace()) * NULL_OUT;
    let null_arrivals = u8::from(call.null_arrivals()) * NULL_ARRIVALS;
    let flags = null_table | null_trace | null_arrivals;
    let mut bytes = frame(RUN, flags, &call.table);
    bytes.extend(number(call.arrivals.len()));
    bytes.extend(call.record_bytes());
    for this in [call.from, call.ticks, call.trace] {
        bytes.extend(number(this));
    }
    bytes.push(call.fill);
    bytes
}

fn number(number: usize) -> [u8; 8] {
    (number as u64).to_le_bytes()
}

/// A run's answer in `RAN_BYTES` bytes.
pub fn read_ran(bytes: &[u8]) -> Ran {
    let counts = RAN_BYTES - 3 * 8;
    let mut ran = Ran {
        number: number_32(bytes, 0),
        names: number_32(bytes, 4),
        mark: number_32(bytes, 8),
        value: number_32(bytes, 12),
        worst: [0; 192],
        jobs: number_64(bytes, counts),
        run: number_64(bytes, counts + 8),
        owed: number_64(bytes, counts + 16),
    };
    for (place, worst) in ran.worst.iter_mut().enumerate() {
        *worst = number_32(bytes, ANSWER_BYTES + 4 * place);
    }
    ran
}

fn number_32(bytes: &[u8], at: usize) -> u32 {
    u32::from_le_bytes([0, 1, 2, 3].map(|place| bytes[at + place]))
}

fn number_64(bytes: &[u8], at: usize) -> u64 {
    let high = u64::from(number_32(bytes, at + 4));
    high << 32 | u64::from(number_32(bytes, at))
}

#[cfg(test)]
mod tests {
    use super::*;
    use crate::run::Arrival;

    /// A request with six bytes is as long as an answer, and `cat` sends it back.
    #[test]
    fn requests_and_answers() -> Result<(), String> {
        let mut echo = Product::start("cat")?;
        echo.ask_to_read(&[vec![0x06, 0x30, 1, 2, 3, 4], vec![0; 6]]);
        let answer = |mark, value| {
            Err(Refusal {
                number: 0x0006_0072,
                names: 0,
                mark,
                value,
            })
        };
        assert_eq!(echo.answer()?, answer(0x3006_0000, 0x0403_0201));
        assert_eq!(echo.answer()?, answer(0, 0));
        echo.finish()
    }

    #[test]
    fn a_request_to_plan() -> Result<(), String> {
        let mut echo = Product::start("cat")?;
        let call = Call {
            table: vec![7; 3],
            at: usize::MAX - 1,
            sheet: vec![8; 2],
            null_table: false,
            null_sheet: true,
        };
        echo.ask_to_plan(&[call]);
        let wanted = [
            &[b'p', 2, 3, 0, 0, 0, 0, 0, 0, 0, 7, 7, 7, 0xfe][..],
            &[0xff; 7],
            &[2, 0, 0, 0, 0, 0, 0, 0, 8, 8],
        ];
        assert_eq!(echo.sheet(31)?, wanted.concat());
        echo.finish()
    }

    #[test]
    fn a_request_to_run() -> Result<(), String> {
        let mut echo = Product::start("cat")?;
        let arrival = |tick| Arrival {
            tick,
            row: 2,
            lengths: [3, 4, 5],
        };
        let call = RunCall {
            table: vec![7; 3],
            arrivals: vec![arrival(0x01_0203), arrival(u32::MAX.into())],
            from: usize::MAX - 1,
            ticks: 9,
            trace: 0,
            fill: 0xee,
            nulls: true,
        };
        echo.ask_to_run(&[call]);
        let rest = [2, 0, 0, 0, 3, 0, 0, 0, 4, 0, 0, 0, 5, 0, 0, 0];
        let wanted = [
            &[b'u', 2, 3, 0, 0, 0, 0, 0, 0, 0, 7, 7, 7][..],
            &[2, 0, 0, 0, 0, 0, 0, 0, 3, 2, 1, 0],
            &rest,
            &[0xff; 4],
            &rest,
            &[0xfe, 0xff, 0xff, 0xff, 0xff, 0xff, 0xff, 0xff],
            &[9, 0, 0, 0, 0, 0, 0, 0],
            &[0, 0, 0, 0, 0, 0, 0, 0, 0xee],
        ];
        assert_eq!(echo.sheet(wanted.concat().len())?, wanted.concat());
        echo.finish()
    }

    /// Each number from its own bytes.
    #[test]
    fn an_answer_of_a_run() {
        let bytes: Vec<u8> = (0..RAN_BYTES).map(|place| (place / 4) as u8).collect();
        let ran = read_ran(&bytes);
        let all = |number: u64| (number % 256) * 0x0101_0101;
        assert_eq!(
            [ran.number, ran.names, ran.mark, ran.value].map(u64::from),
            [0, 1, 2, 3].map(all)
        );
        assert_eq!(
            [ran.worst[0], ran.worst[191]].map(u64::from),
            [all(4), all(195)]
        );
        let counts = [196, 198, 200].map(|place| all(place + 1) << 32 | all(place));
        assert_eq!([ran.jobs, ran.run, ran.owed], counts);
    }

    #[test]
    fn too_little_and_too_much() -> Result<(), String> {
        let mut echo = Product::start("cat")?;
        echo.ask_to_read_null();
        assert!(echo.finish().is_err());
        let mut echo = Product::start("cat")?;
        echo.ask_to_read(&[vec![0; 7]]);
        assert!(echo.answer().is_ok());
        assert!(echo.finish().is_err());
        let mut cut = Product::start("head -c 21")?;
        cut.ask_to_read(&vec![vec![0; 6]; 2]);
        assert!(cut.answer().is_ok());
        let error = cut.answer().expect_err("half of an answer");
        assert!(error.starts_with("5 of 16"), "{error}");
        Ok(())
    }

    #[test]
    fn one_that_ends() -> Result<(), String> {
        for command in ["true", "false"] {
            let mut ended = Product::start(command)?;
            ended.ask_to_read(&vec![vec![0; 700]; BATCH]);
            let error = ended.answer().expect_err("no answer");
            assert!(error.starts_with("0 of"), "{error}");
        }
        assert!(Product::start("false")?.finish().is_err());
        Product::start("true")?.finish()
    }

    /// Neither side waits for the other when both pipes are full.
    #[test]
    fn one_that_only_talks() -> Result<(), String> {
        let mut talker = Product::start("yes")?;
        talker.ask_to_read(&vec![vec![0; 700]; BATCH]);
        assert!(talker.answer()?.is_err());
        Ok(())
    }
}
