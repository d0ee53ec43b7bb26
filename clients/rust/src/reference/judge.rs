//! The first two rows of 01's table: lengths (0x83), then the state handed in (0x87).

use super::request::{Engine, PSN_GREATEST};
use super::{fault, records::Record, Hca, Request, Slot};
use crate::{Refusal, ROOM_BYTES, SLOTS};

impl<const FAULT: u32> Hca<FAULT> {
    /// The row of eight, or 0x83. The store's length is tested while open.
    #[inline]
    pub(super) fn lent<'a>(
        &self,
        row: &'a mut [Slot],
        store_len: usize,
        room_len: usize,
    ) -> Result<&'a mut [Slot; SLOTS], Refusal> {
        let row = row.try_into().map_err(|_| Refusal::BadLength)?;
        let store_right = match FAULT {
            fault::LONGER_STORE => store_len as u64 >= self.store_len,
            _ => store_len as u64 == self.store_len,
        };
        if room_len < ROOM_BYTES || self.open && !store_right {
            return Err(Refusal::BadLength);
        }
        Ok(row)
    }

    /// 0x87 where the state is impossible.
    #[inline]
    pub(super) fn judge(&self, row: &[Slot; SLOTS], store_len: usize) -> Result<(), Refusal> {
        match self.possible(row, store_len) {
            true => Ok(()),
            false => Err(Refusal::Impossible),
        }
    }

    #[inline]
    fn possible(&self, row: &[Slot; SLOTS], store_len: usize) -> bool {
        if !self.open {
            return row.iter().all(Slot::is_free);
        }
        if !self.logs.in_range() || self.logs.bytes() > store_len {
            return false;
        }
        let mut commands = 0;
        let mut writers = false;
        for slot in row {
            let request = match slot {
                Slot::Free => continue,
                Slot::Impossible => return false,
                Slot::Running { request, moved } => {
                    if *moved >= request.bursts() {
                        return false;
                    }
                    writers |= request.written().is_some();
                    request
                }
                Slot::Finished { request } => request,
            };
            if !self.in_range(request) {
                return false;
            }
            commands += u32::from(matches!(request, Request::Command { .. }));
        }
        commands <= 1 && (!writers || FAULT == fault::CLASH_UNJUDGED || !self.clash(row))
    }

    /// Whether a request's numbers would pass the rows of 2 and of the second 3. Names of request 7 are judged by range alone.
    #[inline]
    fn in_range(&self, request: &Request) -> bool {
        let has = |record| self.logs.has(record);
        match *request {
            Request::Command { op, number } => has(Record {
                kind: op.kind(),
                number,
            }),
            Request::Engine(engine) => match engine {
                Engine::ReadState { qp } | Engine::ReadNextPsn { qp } | Engine::ReadAll { qp } => {
                    has(Record::qp(qp))
                }
                Engine::Write { qp, psn, .. } => has(Record::qp(qp)) && psn <= PSN_GREATEST,
                Engine::ReadJoined { qp, cq, eq } => {
                    has(Record::qp(qp)) && has(Record::cq(cq)) && has(Record::eq(eq))
                }
            },
        }
    }

    /// Whether a running writer's record is named by another running slot.
    #[inline]
    fn clash(&self, row: &[Slot; SLOTS]) -> bool {
        for (writer, slot) in row.iter().enumerate() {
            let Slot::Running { request, .. } = slot else {
                continue;
            };
            let Some(record) = request.written() else {
                continue;
            };
            for (other, slot) in row.iter().enumerate() {
                if let Slot::Running { request, .. } = slot {
                    if other != writer && request.names::<FAULT>(record) {
                        return true;
                    }
                }
            }
        }
        false
    }
}
