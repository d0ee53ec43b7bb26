//! Demand 3 by running: a journal of the accepted requests since an INIT_HCA, held against the plain book.

use super::side::{Call, Lengths, Memory, Side, OUT_BYTES};
use ecgslope::reference::book::{Answer, Book, Fed};
use ecgslope::reference::commands::Op;
use ecgslope::reference::records::{Kind, Record};
use ecgslope::reference::Logs;
use ecgslope::{QP_MAILBOX_BYTES, SLOTS};
use std::collections::VecDeque;

/// An accepted request.
struct Entry {
    fed: Fed,
    /// The record that it writes.
    written: Option<Record>,
    /// Its answer, once it is finished.
    answer: Option<Answer>,
}

/// What has happened since an INIT_HCA.
struct Since {
    logs: Logs,
    /// The book, fed every request before the first that still runs.
    settled: Book,
    /// How many those are.
    settled_count: usize,
    /// The others, in the order of acceptance.
    entries: VecDeque<Entry>,
    /// Each occupied slot's place in the order of acceptance.
    slots: [usize; SLOTS],
    /// Answers of finished requests whose slots are uncollected.
    uncollected: [Option<Answer>; SLOTS],
}

/// The journal. It is empty before the first INIT_HCA and after a reset.
#[derive(Default)]
pub struct Journal {
    since: Option<Since>,
    /// Refusals for a record's state that were held against the book.
    pub refusals: u64,
    /// Times that all finished requests and all records not being written were held against the book.
    pub checks: u64,
}

impl Journal {
    /// Notes a call of a side, its answer and the memory after it. Says where the book disagrees.
    pub fn note(
        &mut self,
        side: Side,
        lengths: Lengths,
        call: &Call,
        answer: u32,
        memory: &Memory,
    ) -> Result<(), String> {
        let (number, value) = (answer & 0xff, (answer >> 8) as usize);
        if number == 0 && matches!(call, Call::Reset) {
            self.since = None;
        }
        if let (0, Call::Command { hcr, mailbox }) = (number, call) {
            if op(hcr.get()) == 0x07 {
                let logs = Logs::from_mailbox(mailbox.get());
                self.since = Some(Since::start(logs));
                return Ok(());
            }
        }
        let Some(since) = &mut self.since else {
            return Ok(());
        };
        match *call {
            Call::Command { .. } | Call::Engine { .. } if number == 0 => {
                since.accept(fed(call).expect("an accepted request"), value);
            }
            Call::Engine {
                number: 7, index, ..
            } if number == 3 && since.logs.has(Record::qp(index)) => {
                self.refusals += 1;
                since.refused(call, number)?;
            }
            Call::Command { .. } | Call::Engine { .. } if [0x85, 0x88].contains(&number) => {
                self.refusals += 1;
                since.refused(call, number)?;
            }
            Call::Step { slot } if number == 0 && value == 0 => {
                let mut after = memory.clone();
                let collect = Call::Collect {
                    slot,
                    out: OUT_BYTES,
                };
                let written = side(&mut after, lengths, &collect) >> 8;
                since.finish(slot, after.out[..written as usize].to_vec())?;
            }
            Call::Collect { slot, .. } if number == 0 => {
                let answer = since.uncollected[slot].take();
                if answer.as_deref() != Some(&memory.out[..value]) {
                    return Err("collecting gave another answer than at the last burst".into());
                }
            }
            _ => {}
        }
        Ok(())
    }

    /// Holds all finished requests and all records that are not being written against the book.
    pub fn check(&mut self, memory: &Memory) -> Result<(), String> {
        let Some(since) = &self.since else {
            return Ok(());
        };
        self.checks += 1;
        let book = since.book()?;
        for kind in [Kind::Qp, Kind::Cq, Kind::Eq, Kind::Mpt] {
            for number in 0..since.logs.count(kind) {
                let record = Record { kind, number };
                let mut running = since.entries.iter().filter(|entry| entry.answer.is_none());
                if running.any(|entry| entry.written == Some(record)) {
                    continue;
                }
                let at = since.logs.offset(record);
                let right = book.record(record);
                if &memory.store[at..at + right.len()] != right {
                    return Err(format!("{record:?} is not as in the book"));
                }
            }
        }
        Ok(())
    }
}

impl Since {
    fn start(logs: Logs) -> Since {
        Since {
            logs,
            settled: Book::initialised(logs),
            settled_count: 0,
            entries: VecDeque::new(),
            slots: [0; SLOTS],
            uncollected: Default::default(),
        }
    }

    /// Notes an accepted request; `value` is the slot that it took plus one, or 0 if it is done at once.
    fn accept(&mut self, fed: Fed, value: usize) {
        if value > 0 {
            self.slots[value - 1] = self.settled_count + self.entries.len();
        }
        self.entries.push_back(Entry {
            written: written(&fed),
            answer: (value == 0).then(Vec::new),
            fed,
        });
    }

    /// Notes a last burst. Requests that no running one precedes are fed for good.
    fn finish(&mut self, slot: usize, answer: Answer) -> Result<(), String> {
        let entry = self.slots[slot] - self.settled_count;
        self.uncollected[slot] = Some(answer.clone());
        self.entries[entry].answer = Some(answer);
        while self.entries.front().is_some_and(|e| e.answer.is_some()) {
            let entry = self.entries.pop_front().expect("there is one");
            feed(&mut self.settled, &entry)?;
            self.settled_count += 1;
        }
        Ok(())
    }

    /// The book, fed all finished requests in the order of acceptance.
    fn book(&self) -> Result<Book, String> {
        let mut book = self.settled.clone();
        for entry in &self.entries {
            if entry.answer.is_some() {
                feed(&mut book, entry)?;
            }
        }
        Ok(book)
    }

    /// A refusal for the record's state has to be the book's.
    fn refused(&self, call: &Call, number: u32) -> Result<(), String> {
        let fed = fed(call).expect("a request");
        match self.book()?.feed(&fed) {
            Err(refusal) if refusal.number() == number => Ok(()),
            other => Err(format!(
                "refused with {number:#x}; the book gives {other:?}"
            )),
        }
    }
}

/// Feeds a finished request, which the book has to accept with the same answer.
fn feed(book: &mut Book, entry: &Entry) -> Result<(), String> {
    match book.feed(&entry.fed) {
        Ok(answer) if Some(&answer) == entry.answer.as_ref() => Ok(()),
        other => Err(format!("the book gives {other:?} for {:?}", entry.fed)),
    }
}

fn op(hcr: &[u8]) -> u16 {
    u16::from_le_bytes([hcr[24], hcr[25]]) & 0xfff
}

/// The request that a submission makes.
fn fed(call: &Call) -> Option<Fed> {
    match *call {
        Call::Engine {
            number,
            index,
            psn,
            state,
        } => Some(Fed::Engine {
            number,
            qp: index,
            psn,
            state,
        }),
        Call::Command { hcr, mailbox } => Some(match op(hcr.get()) {
            0x08 => Fed::CloseHca,
            0x31 => Fed::Nop,
            number => {
                let op = Op::from_number(number)?;
                let mut front = [0; QP_MAILBOX_BYTES];
                let needed = op.mailbox_bytes();
                front[..needed].copy_from_slice(&mailbox.get()[..needed]);
                let number = u32::from_le_bytes(hcr.bytes[8..12].try_into().ok()?);
                Fed::Command { op, number, front }
            }
        }),
        _ => None,
    }
}

/// The record that a request writes.
fn written(fed: &Fed) -> Option<Record> {
    match *fed {
        Fed::Command { op, number, .. } if op.writes() => Some(Record {
            kind: op.kind(),
            number,
        }),
        Fed::Engine {
            number: 3..=5, qp, ..
        } => Some(Record::qp(qp)),
        _ => None,
    }
}
