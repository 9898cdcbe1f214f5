//! Hints applied to sheets, and readings compared.
#![allow(dead_code)] // each test file takes what it needs
use lorukinde::{explain_meant, parts_in, Explanation, Manner, Record, Refusal};

pub fn manner(name: &str) -> Manner {
    match name {
        "1" => Manner::Edition1,
        "2" => Manner::Edition2,
        "house" => Manner::House,
        other => panic!("no manner {other}"),
    }
}

/// The refused parts of a sheet, each with its explanation.
pub fn refused(manner: Manner, sheet: &[u8]) -> Vec<(Refusal, Explanation)> {
    let refused = parts_in(manner, sheet).filter_map(|part| Some((part.range, part.reading.err()?)));
    refused.map(|(range, refusal)| (refusal, explain_meant(manner, sheet, range, &refusal))).collect()
}

/// What each proposal of a hint makes of a sheet.
pub fn each_proposal(sheet: &[u8], explanation: &Explanation) -> Vec<Vec<u8>> {
    let hint = match &explanation.hint {
        Some(hint) => hint,
        None => return Vec::new(),
    };
    let write = |write: &String| [&sheet[..hint.range.start], write.as_bytes(), &sheet[hint.range.end..]].concat();
    hint.write.iter().map(write).collect()
}

/// What becomes of a sheet if the first hint is followed, and then the next, until there is none: a sheet for each choice.
pub fn repaired(manner: Manner, sheet: &[u8]) -> Vec<Vec<u8>> {
    let proposals =
        refused(manner, sheet).iter().map(|(_, explanation)| each_proposal(sheet, explanation)).find(|some| !some.is_empty());
    match proposals {
        None => vec![sheet.to_vec()],
        Some(some) => some.iter().flat_map(|better| repaired(manner, better)).collect(),
    }
}

/// What a sheet says, wherever it stands: each rule's records without places, and its note. None if a part is refused.
pub fn reading(manner: Manner, sheet: &[u8]) -> Option<Vec<(Vec<[i32; 16]>, Vec<u8>)>> {
    let mut rules = Vec::new();
    for part in parts_in(manner, sheet) {
        for rule in part.reading.ok()?.rules() {
            let head = [rule.head.separator as i32, rule.head.state as i32];
            let mut first = [0; 16];
            first[..2].copy_from_slice(&head);
            let without_place = |record: &Record| {
                let mut words = record.words();
                words[15] = 0;
                words
            };
            let records = std::iter::once(first).chain(rule.records().iter().map(without_place)).collect();
            rules.push((records, rule.note(b"").to_vec()));
        }
    }
    Some(rules)
}

/// Numbers below a bound, one after the other.
pub fn random(seed: u64) -> impl FnMut(usize) -> usize {
    let mut state = seed;
    move |below| {
        state = state.wrapping_mul(6364136223846793005).wrapping_add(1442695040888963407);
        (state >> 33) as usize % below
    }
}
