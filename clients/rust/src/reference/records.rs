//! The context store: which records there are and where they stand (01, "The context store").

/// The kinds of records, in their order in the store.
#[derive(Clone, Copy, Debug, PartialEq, Eq)]
pub enum Kind {
    Qp,
    Cq,
    Eq,
    Mpt,
}

/// A record by kind and number: numbers of different kinds are never the same record.
#[derive(Clone, Copy, Debug, PartialEq, Eq)]
pub struct Record {
    pub kind: Kind,
    pub number: u32,
}

impl Record {
    pub fn qp(number: u32) -> Record {
        let kind = Kind::Qp;
        Record { kind, number }
    }

    pub fn cq(number: u32) -> Record {
        let kind = Kind::Cq;
        Record { kind, number }
    }

    pub fn eq(number: u32) -> Record {
        let kind = Kind::Eq;
        Record { kind, number }
    }

    pub fn mpt(number: u32) -> Record {
        let kind = Kind::Mpt;
        Record { kind, number }
    }
}

/// Bytes of a queue pair's record.
pub const QP_BYTES: usize = 256;
/// Bytes of any other record.
pub const OTHER_BYTES: usize = 64;
/// Bytes that a step moves.
pub const BURST_BYTES: usize = 16;
/// The byte of a CQ, EQ or MPT record that says who owns it.
pub const OWNER_BYTE: usize = 63;
/// The owner byte's value while the hardware owns the record; any other reads as software's.
pub const HARDWARE: u8 = 1;

/// The logarithms of the counts of queue pairs, completion queues, event queues and MPTs.
#[derive(Clone, Copy, Debug, PartialEq, Eq)]
pub struct Logs(pub [u8; 4]);

impl Logs {
    const GREATEST: [u8; 4] = [14, 14, 5, 16];

    /// The logarithms of INIT_HCA's mailbox: a byte each.
    pub fn from_mailbox(mailbox: &[u8]) -> Logs {
        Logs([mailbox[0x0f], mailbox[0x17], mailbox[0x1f], mailbox[0x37]])
    }

    /// Whether each is at most its greatest. The other functions need it.
    #[inline]
    pub fn in_range(self) -> bool {
        self.0
            .iter()
            .zip(Self::GREATEST)
            .all(|(&log, most)| log <= most)
    }

    #[inline]
    pub fn count(self, kind: Kind) -> u32 {
        1 << self.0[kind as usize]
    }

    /// Whether there is such a record.
    #[inline]
    pub fn has(self, record: Record) -> bool {
        record.number < self.count(record.kind)
    }

    /// The bytes in use.
    #[inline]
    pub fn bytes(self) -> usize {
        self.start(Kind::Mpt) + (OTHER_BYTES << self.0[3])
    }

    /// Where a record starts.
    #[inline]
    pub fn offset(self, record: Record) -> usize {
        let size = match record.kind {
            Kind::Qp => QP_BYTES,
            _ => OTHER_BYTES,
        };
        self.start(record.kind) + size * record.number as usize
    }

    #[inline]
    fn start(self, kind: Kind) -> usize {
        let [qps, cqs, eqs, _] = self.0;
        let mut start = 0;
        if kind != Kind::Qp {
            start += QP_BYTES << qps;
            if kind != Kind::Cq {
                start += OTHER_BYTES << cqs;
                if kind != Kind::Eq {
                    start += OTHER_BYTES << eqs;
                }
            }
        }
        start
    }
}

/// A big-endian word of a record or a mailbox.
#[inline]
pub fn word(bytes: &[u8], at: usize) -> u32 {
    u32::from_be_bytes([bytes[at], bytes[at + 1], bytes[at + 2], bytes[at + 3]])
}

/// The state code of a queue pair's record, 0 to 15: bits 31:28 of word 00h.
#[inline]
pub fn state_code(record: &[u8]) -> u8 {
    record[0] >> 4
}

/// The service type of a queue pair's record: bits 23:16 of word 00h.
#[inline]
pub fn service_type(record: &[u8]) -> u8 {
    record[1]
}

/// Sets the state and keeps bits 27:24.
#[inline]
pub fn set_state(record: &mut [u8], state: State) {
    record[0] = record[0] & 0x0f | (state as u8) << 4;
}

/// States of a queue pair.
#[derive(Clone, Copy, Debug, PartialEq, Eq)]
pub enum State {
    Reset = 0,
    Init = 1,
    Rtr = 2,
    Rts = 3,
    Sqe = 4,
    Sqd = 5,
    Err = 6,
}

impl State {
    /// The state with this code; a code above 6 is none.
    pub fn from_code(code: u8) -> Option<State> {
        Some(match code {
            0 => State::Reset,
            1 => State::Init,
            2 => State::Rtr,
            3 => State::Rts,
            4 => State::Sqe,
            5 => State::Sqd,
            6 => State::Err,
            _ => return None,
        })
    }
}

/// Service type RC, the one that may not go to SQE by an engine write.
pub const RC: u8 = 0;

/// The service types: RC, UC and UD.
pub const SERVICE_TYPES: [u8; 3] = [RC, 1, 3];

/// Whether 0x19 accepts this service type.
pub fn is_service_type(code: u8) -> bool {
    SERVICE_TYPES.contains(&code)
}
