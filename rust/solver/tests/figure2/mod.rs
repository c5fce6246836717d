//! AC-4 as Figure 2 of source document 004 has it, with the figure's lines in comments: sets and plain numbers only, and a record of all
//! that entered the list. What the figure does for SAC-2 is left out.

use solver::{Set, Sheet, MOST};
use std::collections::{BTreeMap, BTreeSet, VecDeque};

/// A field and a position.
pub type Setting = (usize, usize);

/// The data of the figure.
#[derive(Clone, Debug)]
pub struct Ac4<'a> {
    sheet: &'a Sheet,
    /// D_i for each field i.
    d: Vec<BTreeSet<usize>>,
    /// The settings that have 1 in M.
    m: BTreeSet<Setting>,
    /// Counter[(i, j), a], where it was made.
    counter: BTreeMap<(usize, usize, usize), usize>,
    /// S_jb, where it is not empty.
    s: BTreeMap<Setting, BTreeSet<Setting>>,
    /// listAC. The setting that entered first is in front, and is taken first.
    list: VecDeque<Setting>,
    /// All that entered the list, in order, since the last closing began.
    pub entered: Vec<Setting>,
}

/// C: the pairs of fields that a rule joins, each both ways.
fn arcs(sheet: &Sheet) -> Vec<(usize, usize)> {
    sheet.rules.iter().flat_map(|rule| [(rule.i, rule.j), (rule.j, rule.i)]).collect()
}

/// (a, b) in c_ij, for a of field i and b of field j.
fn allowed(sheet: &Sheet, (i, a): Setting, (j, b): Setting) -> bool {
    let mut rules = sheet.rules.iter();
    rules.any(|rule| (rule.i, rule.j) == (i, j) && sheet.allows(rule, a, b) || (rule.j, rule.i) == (i, j) && sheet.allows(rule, b, a))
}

impl<'a> Ac4<'a> {
    /// Nothing is counted and nothing is on the list. D is the set.
    pub fn new(sheet: &'a Sheet, set: &Set) -> Ac4<'a> {
        let d = (0..sheet.fields()).map(|f| (0..MOST).filter(|v| set[f] >> v & 1 == 1).collect()).collect();
        Ac4 { sheet, d, m: [].into(), counter: [].into(), s: [].into(), list: [].into(), entered: vec![] }
    }

    /// initializeAC.
    pub fn initialize_ac(&mut self) {
        // 1  forall (i, j) in C do
        for (i, j) in arcs(self.sheet) {
            // 2  forall a in D_i do
            for a in self.d[i].clone() {
                // 3  total <- 0
                let mut total = 0;
                // 4  forall b in D_j do
                for b in self.d[j].clone() {
                    // 5  if (a, b) in c_ij then
                    if allowed(self.sheet, (i, a), (j, b)) {
                        // 6  total <- total + 1
                        total += 1;
                        // 7  S_jb <- S_jb with (i, a)
                        self.s.entry((j, b)).or_default().insert((i, a));
                    }
                }
                // 8  if total = 0 then
                if total == 0 {
                    // 9 to 11
                    self.move_out((i, a));
                } else {
                    // 12  else Counter[(i, j), a] <- total
                    self.counter.insert((i, j, a), total);
                }
            }
        }
    }

    /// pruneAC. Only settings of the fields `within` leave D.
    pub fn prune_ac(&mut self, within: &[usize]) {
        // 1  while listAC is not empty do
        while self.turn(within) {}
    }

    /// The same, but it ends as soon as a field is empty.
    pub fn prune_until_wiped_out(&mut self, within: &[usize]) {
        while !self.wiped_out() && self.turn(within) {}
    }

    /// A turn of pruneAC; false where the list is empty.
    fn turn(&mut self, within: &[usize]) -> bool {
        // 2  choose and delete (j, b) from listAC
        let Some((j, b)) = self.list.pop_front() else { return false };
        // 3  forall (i, a) in S_jb do
        for (i, a) in self.s.get(&(j, b)).cloned().unwrap_or_default() {
            // 4  Counter[(i, j), a] <- Counter[(i, j), a] - 1
            let count = self.counter.get_mut(&(i, j, a)).expect("a count for each (i, a) of S_jb");
            *count -= 1;
            // 5  if Counter[(i, j), a] = 0 and M[i, a] = 0 then
            if *count == 0 && !self.m.contains(&(i, a)) && within.contains(&i) {
                // 6 to 8
                self.move_out((i, a));
            }
        }
        true
    }

    /// Lines 9 to 11 of initializeAC, 6 to 8 of pruneAC.
    fn move_out(&mut self, (i, a): Setting) {
        // D_i <- D_i without a
        self.d[i].remove(&a);
        // M[i, a] <- 1
        self.m.insert((i, a));
        // listAC <- listAC with (i, a)
        self.list.push_back((i, a));
        self.entered.push((i, a));
    }

    /// A copy for the test of (f, v): D_f is cut to v, and what is cut off is on the list.
    pub fn cut(&self, (f, v): Setting) -> Ac4<'a> {
        let mut copy = Ac4 { entered: vec![], ..self.clone() };
        self.d[f].iter().filter(|&&a| a != v).for_each(|&a| copy.move_out((f, a)));
        copy
    }

    /// Takes (f, v) out of D and puts it on the list.
    pub fn remove(&mut self, setting: Setting) {
        self.entered.clear();
        self.move_out(setting);
    }

    /// D as masks.
    pub fn set(&self) -> Set {
        let mut set = [0; MOST];
        self.d.iter().zip(&mut set).for_each(|(d, mask)| *mask = d.iter().map(|v| 1 << v).sum());
        set
    }

    /// Whether some field is empty.
    pub fn wiped_out(&self) -> bool {
        self.d.iter().any(BTreeSet::is_empty)
    }

    /// Whether each setting still there has a count under each of its rules, and each of these is the number of its allowed partners still
    /// there.
    pub fn counts_are_right(&self) -> bool {
        let right = |i: usize, j: usize, a: usize| {
            let partners = self.d[j].iter().filter(|&&b| allowed(self.sheet, (i, a), (j, b))).count();
            self.counter.get(&(i, j, a)) == Some(&partners)
        };
        arcs(self.sheet).into_iter().all(|(i, j)| self.d[i].iter().all(|&a| right(i, j, a)))
    }
}
