//! A reading from start on: all the bytes fed, the tree of them, and what each part came to.

use crate::faults::{first, shown, Fault};
use crate::fed::Fed;
use crate::lent::{Area, Record, Store};
use crate::segment::{Leaf, Segment, Slot, Top};

/// A reading that neither ended nor was refused.
#[derive(Clone, Debug)]
pub struct Reading {
    pub brand: u64,
    pub fed: Fed,
    pub segment: Segment,
    /// How many leaves are listed.
    pub leaves: u64,
}

/// What a part came to.
#[derive(Clone, Debug)]
pub struct Outcome {
    /// The count of all bytes read; the fault's byte counts.
    pub count: u64,
    pub end: End,
    /// The entry bytes among those read, in their order.
    pub stores: Vec<Store>,
    /// The records of the leaves whose last byte was accepted.
    pub records: Vec<Record>,
}

#[derive(Clone, Copy, Debug)]
pub enum End {
    /// More bytes belong to the segment.
    Open,
    /// All the material was read.
    Ended(Top),
    Refused(Fault),
}

impl Reading {
    pub fn new(brand: u64) -> Reading {
        Reading { brand, fed: Fed::default(), segment: Segment::new(brand), leaves: 0 }
    }

    /// Reads one more part, with this work area lent and a table of this room. After a refusal the reading is of no more use.
    pub fn feed(&mut self, part: &[u8], work: &[u8], room: u64) -> Outcome {
        let since = self.fed.count();
        self.fed.add(part);
        let mut area = Area::new(work);
        self.segment.extend(&self.fed, since, &mut area);
        let fault = first(&shown(&self.segment, since, self.fed.count(), room));
        let count = fault.map_or(self.fed.count(), |fault| fault.at + 1);
        let accepted = fault.map_or(self.fed.count(), |fault| fault.at);
        let mut stores = area.stores;
        stores.retain(|store| store.at < count);
        let leaves = self.segment.leaves(since, accepted);
        let records: Vec<Record> = leaves.into_iter().map(|(slot, leaf)| record(slot, leaf)).collect();
        self.leaves += records.len() as u64;
        Outcome { count, end: self.end(fault), stores, records }
    }

    fn end(&self, fault: Option<Fault>) -> End {
        match (fault, &self.segment.rest) {
            (Some(fault), _) => End::Refused(fault),
            (None, Some(rest)) if rest.top.end == self.fed.count() => End::Ended(rest.top),
            _ => End::Open,
        }
    }
}

/// The six numbers of a leaf.
fn record(slot: &Slot, leaf: &Leaf) -> Record {
    let decode_time = leaf.times.first().map_or(0, |first| first.time);
    Record { number: leaf.number, numbers: [slot.pos, slot.size, slot.start, slot.duration, slot.sap, decode_time] }
}
