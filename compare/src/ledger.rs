//! The plain ledger of document 01: records, the unit rule, free runs, the lowest fit; each record with its party, as
//! request 6 of document 02 has it.
//! Nothing here knows an engine. Numbers are read as 64-bit, so nothing wraps round.

/// What a unit is, and what a request takes.
#[derive(Clone, Copy, PartialEq, Eq, Debug)]
pub struct UnitRule {
    /// Words to a unit.
    pub unit: usize,
    /// Words of a block before its address. They come on top of the words asked, and all are rounded up to units.
    pub before: usize,
    /// The most words that can be asked for.
    pub limit: u32,
}

/// In a call, what is named: there the party is the caller's.
#[derive(Clone, Copy, PartialEq, Eq, Debug)]
pub struct Record {
    pub ticket: u32,
    pub address: u32,
    pub words: u32,
    pub party: u32,
}

/// Words of a record in the table.
pub const RECORD_WORDS: usize = 4;

/// Is there such a party?
pub fn is_party(party: u32) -> bool {
    (1..=255).contains(&party)
}

/// Units that lie together.
#[derive(Clone, Copy, PartialEq, Eq, Debug)]
pub struct Run {
    pub first: usize,
    pub count: usize,
}

#[derive(Clone, PartialEq, Eq, Debug)]
pub struct Ledger {
    pub rule: UnitRule,
    pub units: usize,
    pub slots: Vec<Option<Record>>,
    pub next: u32,
}

impl Run {
    pub fn end(self) -> usize {
        self.first + self.count
    }
}

impl UnitRule {
    pub fn units_in(self, arena_words: usize) -> usize {
        arena_words / self.unit
    }

    pub fn units_for(self, words: u32) -> usize {
        (words as usize + self.before).div_ceil(self.unit)
    }

    /// The unit a block at this address begins with, if one begins so.
    pub fn first_unit(self, address: u32) -> Option<usize> {
        let word = (address as usize).checked_sub(self.before)?;
        (word % self.unit == 0).then_some(word / self.unit)
    }

    pub fn address_of(self, first: usize) -> u32 {
        (first * self.unit + self.before) as u32
    }

    /// The most words that so many units can be asked for.
    pub fn most_in(self, units: usize) -> u32 {
        (units * self.unit).saturating_sub(self.before) as u32
    }

    /// The words of the arena that these units are.
    pub fn words_of(self, run: Run) -> std::ops::Range<usize> {
        self.unit * run.first..self.unit * run.end()
    }
}

impl Ledger {
    pub fn empty(rule: UnitRule, arena_words: usize, slots: usize, next: u32) -> Ledger {
        Ledger { rule, units: rule.units_in(arena_words), slots: vec![None; slots], next }
    }

    /// The one ledger that this table, next ticket and arena length name, if they name one.
    pub fn read(rule: UnitRule, arena_words: usize, table: &[u32], next: u32) -> Option<Ledger> {
        let slots: Option<Vec<_>> = table.chunks_exact(RECORD_WORDS).map(read_slot).collect();
        let ledger = Ledger { rule, units: rule.units_in(arena_words), slots: slots?, next };
        let lawful = ledger.live().all(|record| ledger.allows(record));
        (lawful && ledger.tickets_differ() && ledger.blocks_stand_apart()).then_some(ledger)
    }

    pub fn table(&self) -> Vec<u32> {
        let words = |slot: &Option<Record>| slot.map_or([0; RECORD_WORDS], |r| [r.ticket, r.address, r.words, r.party]);
        self.slots.iter().flat_map(words).collect()
    }

    pub fn live(&self) -> impl Iterator<Item = Record> + '_ {
        self.slots.iter().flatten().copied()
    }

    /// The units of a record that starts on a unit.
    pub fn units_of(&self, record: Record) -> Option<Run> {
        let first = self.rule.first_unit(record.address)?;
        Some(Run { first, count: self.rule.units_for(record.words) })
    }

    fn allows(&self, record: Record) -> bool {
        let inside = self.units_of(record).is_some_and(|run| run.end() <= self.units);
        let given_out = self.next == 0 || record.ticket < self.next;
        inside && given_out && record.ticket != 0 && record.words >= 1 && is_party(record.party)
    }

    fn tickets_differ(&self) -> bool {
        let mut tickets: Vec<u32> = self.live().map(|record| record.ticket).collect();
        tickets.sort_unstable();
        tickets.windows(2).all(|pair| pair[0] != pair[1])
    }

    fn blocks_stand_apart(&self) -> bool {
        self.held_runs().windows(2).all(|pair| pair[0].end() <= pair[1].first)
    }

    /// Each record's units, by address; two that touch stay two.
    pub fn held_runs(&self) -> Vec<Run> {
        let mut runs: Vec<Run> = self.live().filter_map(|record| self.units_of(record)).collect();
        runs.sort_unstable_by_key(|run| run.first);
        runs
    }

    /// The longest runs of free units, by address.
    pub fn free_runs(&self) -> Vec<Run> {
        let mut free = Vec::new();
        let mut from = 0;
        for held in self.held_runs() {
            if held.first > from {
                free.push(Run { first: from, count: held.first - from });
            }
            from = held.end();
        }
        if self.units > from {
            free.push(Run { first: from, count: self.units - from });
        }
        free
    }

    /// Grants a request, or says its number: 2, 3, 4, 5 in this order.
    pub fn grant(&mut self, party: u32, words: u32) -> Result<Record, u32> {
        if words == 0 || words > self.rule.limit {
            return Err(2);
        }
        let slot = self.slots.iter().position(Option::is_none).ok_or(3u32)?;
        if self.next == 0 {
            return Err(4);
        }
        let wanted = self.rule.units_for(words);
        let run = self.free_runs().into_iter().find(|run| run.count >= wanted).ok_or(5u32)?;
        let record = Record { ticket: self.next, address: self.rule.address_of(run.first), words, party };
        self.slots[slot] = Some(record);
        self.next = self.next.wrapping_add(1);
        Ok(record)
    }

    /// The slot of the record so named, or the number: 6, 7 in this order. Another party's ticket is as a dead one.
    pub fn slot_of(&self, named: Record) -> Result<usize, u32> {
        let has_ticket =
            |slot: &Option<Record>| slot.is_some_and(|r| r.ticket == named.ticket && r.party == named.party);
        let slot = self.slots.iter().position(has_ticket).ok_or(6u32)?;
        if self.slots[slot] == Some(named) { Ok(slot) } else { Err(7) }
    }

    /// Request 13: the record now reads the kept number; 6, 7, 2 in this order.
    pub fn trim(&mut self, named: Record, keep: u32) -> Result<Record, u32> {
        let slot = self.slot_of(named)?;
        if keep == 0 || keep > named.words {
            return Err(2);
        }
        let kept = Record { words: keep, ..named };
        self.slots[slot] = Some(kept);
        Ok(kept)
    }

    pub fn release(&mut self, named: Record) -> Result<Record, u32> {
        let slot = self.slot_of(named)?;
        self.slots[slot] = None;
        Ok(named)
    }
}

/// An empty record is four zeros. Ticket 0 beside another word is no slot of any ledger.
fn read_slot(words: &[u32]) -> Option<Option<Record>> {
    match *words {
        [0, 0, 0, 0] => Some(None),
        [0, _, _, _] => None,
        [ticket, address, words, party] => Some(Some(Record { ticket, address, words, party })),
        _ => None,
    }
}
