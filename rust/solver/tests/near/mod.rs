//! Neighbourhoods by paths.

use solver::Sheet;

/// The pairs of fields that a rule or a triple makes neighbours.
fn pairs(sheet: &Sheet) -> Vec<(usize, usize)> {
    let of_triples = sheet.triples.iter().flat_map(|triple| [(triple.i, triple.j), (triple.i, triple.k), (triple.j, triple.k)]);
    sheet.rules.iter().map(|rule| (rule.i, rule.j)).chain(of_triples).collect()
}

/// The fields at most as many rules or triples away from f as the reach says, by paths that grow; every field at reach 24.
pub fn near(sheet: &Sheet, f: usize) -> Vec<usize> {
    let mut away = vec![None; sheet.fields()];
    away[f] = Some(0);
    for step in 1..sheet.fields() as u32 {
        for (i, j) in pairs(sheet) {
            for (one, other) in [(i, j), (j, i)] {
                if away[one] == Some(step - 1) && away[other].is_none() {
                    away[other] = Some(step);
                }
            }
        }
    }
    let whole = sheet.reach == 24;
    (0..sheet.fields()).filter(|&g| whole || away[g].is_some_and(|step| step <= sheet.reach)).collect()
}
