//! How often each call gave each number, which sheets it met, with which engine at which reach calls were accepted, and which fields were
//! selected.

use crate::case::{number, Given};
use crate::selections::Extent;
use crate::sheets::widest;
use public_calls::Name;
use solver::{reading, Sheet};
use std::collections::{BTreeMap, BTreeSet};
use std::fmt;

#[derive(Clone, Debug, Default)]
pub struct Tally {
    /// How often each call gave each number.
    counts: BTreeMap<(Name, u32), u64>,
    /// The accepted calls, for each engine by the reach of their sheet.
    pub accepted: [[u64; 24]; 3],
    /// The accepted calls, for each engine by what is selected.
    pub selected: [BTreeMap<Extent, u64>; 3],
    /// The masks that were judged: those that open was given, and those of the session in other calls.
    pub opened: BTreeMap<Extent, u64>,
    pub held: BTreeMap<Extent, u64>,
    /// The accepted opens that put another good mask in the place of one.
    pub reselected: u64,
    pub fields: BTreeSet<usize>,
    pub settings: BTreeSet<usize>,
    pub reaches: BTreeSet<u32>,
    pub kinds: BTreeSet<u32>,
    /// How many triples the sheets had.
    pub triples: BTreeSet<usize>,
    /// The largest setting, the largest c of a rule, and that of a triple.
    pub widest: [u32; 3],
}

impl Tally {
    /// Counts a call on a sheet, which gave this number. The session's mask before it is `held`.
    pub fn add(&mut self, given: &Given, sheet: &[u8], held: u32, answered: u32) {
        *self.counts.entry((given.call.name(), answered)).or_default() += 1;
        if !given.call.row().has("session") || (1..=6).contains(&answered) {
            return;
        }
        let sheet = reading::sheet(given.sheet.as_deref().unwrap_or(sheet)).expect("the sheet was read");
        let opened = number(&given.call, "selected");
        let extent = Extent::of(opened.unwrap_or(held), sheet.fields());
        let masks = if opened.is_some() { &mut self.opened } else { &mut self.held };
        *masks.entry(extent).or_default() += 1;
        if answered == 0 {
            self.accepted[given.engine as usize - 1][sheet.reach as usize - 1] += 1;
            *self.selected[given.engine as usize - 1].entry(extent).or_default() += 1;
            self.reselected += u64::from(opened.is_some_and(|opened| opened != held) && sheet.selects(held));
        }
    }

    pub fn meet(&mut self, sheet: &Sheet) {
        self.fields.insert(sheet.fields());
        self.settings.extend(sheet.settings.iter().map(Vec::len));
        self.reaches.insert(sheet.reach);
        self.kinds.extend(sheet.rules.iter().map(|rule| rule.kind));
        self.triples.insert(sheet.triples.len());
        self.widest.iter_mut().zip(widest(sheet)).for_each(|(most, number)| *most = number.max(*most));
    }

    /// How often a call gave a number.
    pub fn count(&self, call: Name, number: u32) -> u64 {
        self.counts.get(&(call, number)).copied().unwrap_or(0)
    }

    /// How many calls there were.
    pub fn calls(&self) -> u64 {
        self.counts.values().sum()
    }

    /// How many calls gave this number.
    pub fn number(&self, number: u32) -> u64 {
        Name::ALL.iter().map(|&call| self.count(call, number)).sum()
    }

    /// The calls with the numbers of their rows, 0 among them, that were not met; of the numbers only those wanted.
    pub fn missing(&self, calls: &[Name], wanted: impl Fn(u32) -> bool) -> Vec<(Name, u32)> {
        let numbers = |call: Name| [0].into_iter().chain(call.row().numbers()).map(move |number| (call, number));
        let all = calls.iter().flat_map(|&call| numbers(call));
        all.filter(|&(call, number)| wanted(number) && self.count(call, number) == 0).collect()
    }
}

impl fmt::Display for Tally {
    fn fmt(&self, formatter: &mut fmt::Formatter) -> fmt::Result {
        writeln!(formatter, "{} calls, {} accepted", self.calls(), self.number(0))?;
        for call in Name::ALL {
            write!(formatter, "{:>16}", call.row().name)?;
            for ((_, number), count) in self.counts.range((*call, 0)..=(*call, u32::MAX)) {
                write!(formatter, "  {number}: {count}")?;
            }
            writeln!(formatter)?;
        }
        let [fields, settings, triples] = [&self.fields, &self.settings, &self.triples].map(BTreeSet::len);
        let (reaches, kinds) = (self.reaches.len(), self.kinds.len());
        writeln!(formatter, "{fields} counts of fields, {settings} of settings, {triples} of triples, {reaches} reaches, {kinds} kinds")?;
        for (engine, accepted) in (1..).zip(&self.accepted) {
            let (least, whole) = (accepted.iter().min().unwrap(), accepted[23]);
            let short: u64 = accepted[..23].iter().sum();
            writeln!(formatter, "engine {engine}: {short} accepted at the reaches below 24, {whole} at 24, at each reach {least} or more")?;
        }
        for (engine, selected) in (1..).zip(&self.selected) {
            writeln!(formatter, "engine {engine}: accepted by what is selected {selected:?}")?;
        }
        writeln!(formatter, "masks of open {:?}, of other calls {:?}, {} selected afresh", self.opened, self.held, self.reselected)?;
        let [setting, of_rules, of_triples] = self.widest;
        write!(formatter, "settings up to {setting}, c up to {of_rules} in rules and {of_triples} in triples")
    }
}
