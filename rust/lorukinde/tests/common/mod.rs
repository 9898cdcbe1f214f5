//! What the tests share: a table with marked bytes, and answers as the programs of the repository write them.
#![allow(dead_code)] // each test file takes what it needs
use lorukinde::{read_feed, read_part_in, read_sheet_in, LineAnswer, Manner, PartReading, Reading, Record, Refusal};

extern "C" {
    fn lorukinde_read_sheet_in(
        edition: u32,
        sheet: *const u8,
        sheet_len: usize,
        table: *mut u8,
        table_len: usize,
        place: *mut u32,
        records: *mut u32,
        warnings: *mut u32,
    ) -> u32;

    fn lorukinde_read_part_in(
        edition: u32,
        sheet: *const u8,
        sheet_len: usize,
        begin: usize,
        table: *mut u8,
        table_len: usize,
        place: *mut u32,
        records: *mut u32,
        warnings: *mut u32,
        next: *mut u32,
        last: *mut u32,
    ) -> u32;
}

/// The C call for a sheet that takes the edition as a number: number, place, records, warnings.
pub fn by_number(edition: u32, sheet: &[u8], table: &mut [Record]) -> [u32; 4] {
    let [mut place, mut records, mut warnings] = [0; 3];
    let (t, bytes) = (table.as_mut_ptr().cast::<u8>(), std::mem::size_of_val(table));
    // Sound: as in the crate's own calls.
    let number = unsafe {
        lorukinde_read_sheet_in(edition, sheet.as_ptr(), sheet.len(), t, bytes, &mut place, &mut records, &mut warnings)
    };
    [number, place, records, warnings]
}

/// The C call for a part that takes the edition as a number: number, place, records, warnings, next, last.
pub fn part_by_number(edition: u32, sheet: &[u8], begin: usize, table: &mut [Record]) -> [u32; 6] {
    let [mut place, mut records, mut warnings, mut next, mut last] = [0; 5];
    let (s, n) = (sheet.as_ptr(), sheet.len());
    let (t, bytes) = (table.as_mut_ptr().cast::<u8>(), std::mem::size_of_val(table));
    let (p, r, w) = (&mut place, &mut records, &mut warnings);
    // Sound: as in the crate's own calls.
    let number = unsafe { lorukinde_read_part_in(edition, s, n, begin, t, bytes, p, r, w, &mut next, &mut last) };
    [number, place, records, warnings, next, last]
}

/// How a test reads: in a manner of the crate, or by the number of an edition that there is not, which only the calls for C take.
#[derive(Clone, Copy)]
pub enum By {
    In(Manner),
    NoEdition(u32),
}

impl By {
    pub const PLAIN: By = By::In(Manner::Edition1);

    pub fn edition(number: u32) -> By {
        match number {
            1 => By::PLAIN,
            2 => By::In(Manner::Edition2),
            other => By::NoEdition(other),
        }
    }

    pub fn sheet<'a>(self, sheet: &'a [u8], table: &'a mut [Record]) -> Result<Reading<'a>, Refusal> {
        match self {
            By::In(manner) => read_sheet_in(manner, sheet, table),
            By::NoEdition(edition) => Err(refused(by_number(edition, sheet, table))),
        }
    }

    pub fn part<'a>(self, sheet: &'a [u8], begin: usize, table: &'a mut [Record]) -> PartReading<'a> {
        match self {
            By::In(manner) => read_part_in(manner, sheet, begin, table),
            By::NoEdition(edition) => {
                let [number, place, records, warnings, next, last] = part_by_number(edition, sheet, begin, table);
                PartReading {
                    reading: Err(refused([number, place, records, warnings])),
                    next: (last == 0).then_some(next as usize),
                }
            }
        }
    }
}

/// The refusal that an answer has to be.
fn refused([number, place, records, warnings]: [u32; 4]) -> Refusal {
    assert!(number != 0 && (records, warnings) == (0, 0));
    Refusal { number, place: place as usize }
}

/// Words that no reading writes, to see what a reading has left alone.
pub fn mark() -> Record {
    Record::from_words([-0x5a5a_5a5b; 16])
}

pub fn marked(room: usize) -> Vec<Record> {
    vec![mark(); room]
}

/// 16 words of which the first are given and the others 0.
pub fn words<const N: usize>(first: [i32; N]) -> [i32; 16] {
    let mut all = [0; 16];
    all[..N].copy_from_slice(&first);
    all
}

/// A record's words, with the place of its item.
pub fn at(place: usize, mut words: [i32; 16]) -> [i32; 16] {
    words[15] = place as i32;
    words
}

fn numbers(some: impl IntoIterator<Item = i64>) -> Vec<u8> {
    let some: Vec<String> = some.into_iter().map(|n| n.to_string()).collect();
    some.join(" ").into_bytes()
}

/// The answer as numbers, as far as sheets and parts have the same: number, place, records, warnings.
fn four(reading: &Result<Reading<'_>, Refusal>) -> Vec<i64> {
    match reading {
        Ok(r) => vec![0, 0, r.records().len() as i64, r.warnings().into()],
        Err(r) => vec![r.number.into(), r.place as i64, 0, 0],
    }
}

fn record_lines(reading: &Result<Reading<'_>, Refusal>) -> Vec<Vec<u8>> {
    let records = reading.as_ref().map_or(&[][..], Reading::records);
    records.iter().map(|r| numbers(r.words().map(i64::from))).collect()
}

/// Nothing but the records of an accepted reading may have changed.
fn hold_rest(table: &[Record], records: usize, sheet: &[u8]) {
    assert!(table[records..].iter().all(|r| *r == mark()), "words outside the records of {:?}", String::from_utf8_lossy(sheet));
}

/// A sheet's answer as lines: four numbers, then each record.
pub fn sheet_lines(by: By, sheet: &[u8], room: usize) -> Vec<Vec<u8>> {
    let mut table = marked(room);
    let reading = by.sheet(sheet, &mut table);
    let answer = four(&reading);
    let mut lines = vec![numbers(answer.clone())];
    lines.extend(record_lines(&reading));
    hold_rest(&table, answer[2] as usize, sheet);
    lines
}

/// A part's answer as lines, six numbers and then each record; and where the next part begins.
pub fn one_part(by: By, sheet: &[u8], begin: usize, room: usize) -> (Vec<Vec<u8>>, Option<usize>) {
    let mut table = marked(room);
    let part = by.part(sheet, begin, &mut table);
    let mut answer = four(&part.reading);
    answer.extend([part.next.unwrap_or(0) as i64, part.next.is_none().into()]);
    let mut lines = vec![numbers(answer.clone())];
    lines.extend(record_lines(&part.reading));
    let next = part.next;
    hold_rest(&table, answer[2] as usize, sheet);
    (lines, next)
}

/// The parts' answers as lines, by `next` from 0 on.
pub fn part_lines(by: By, sheet: &[u8], room: usize) -> Vec<Vec<u8>> {
    let mut lines = Vec::new();
    let mut begin = Some(0);
    while let Some(at) = begin {
        let (part, next) = one_part(by, sheet, at, room);
        lines.extend(part);
        begin = next;
    }
    lines
}

/// The places, up to one after the end, where a part begins.
pub fn place_line(by: By, sheet: &[u8], room: usize) -> Vec<u8> {
    let mut table = marked(room);
    let mut begins = |at: &usize| match by.part(sheet, *at, &mut table).reading {
        Err(refusal) => refusal.number != Refusal::NO_PART,
        Ok(_) => true,
    };
    let places = (0..sheet.len() + 2).filter(&mut begins).map(|at| format!(" {at}"));
    format!("B{}", places.collect::<String>()).into_bytes()
}

/// A feed's answer as lines: number, lines and records, each line's four numbers, each record. Tables of so many words; those that a
/// whole group does not hold are left out.
pub fn feed_lines(feed: &[u8], answer_words: usize, words: usize) -> Vec<Vec<u8>> {
    let unused = LineAnswer::from_words([0x5a5a_5a5a; 4]);
    let (mut answers, mut table) = (vec![unused; answer_words / 4], marked(words / 16));
    let (lines, used) = match read_feed(feed, &mut answers, &mut table) {
        Err(refusal) => (vec![numbers([refusal.number.into(), 0, 0])], (0, 0)),
        Ok(read) => {
            let used = (read.answers().len(), read.records().len());
            let mut lines = vec![numbers([0, used.0 as i64, used.1 as i64])];
            lines.extend(read.lines().map(|line| numbers(four(&line.reading))));
            lines.extend(read.lines().flat_map(|line| record_lines(&line.reading)));
            (lines, used)
        }
    };
    assert!(answers[used.0..].iter().all(|answer| *answer == unused), "{:?}", String::from_utf8_lossy(feed));
    hold_rest(&table, used.1, feed);
    lines
}

/// A file of the repository, its lines.
pub fn lines_of(path: &str) -> std::io::Result<Vec<Vec<u8>>> {
    let text = std::fs::read(format!("{}/../../{path}", env!("CARGO_MANIFEST_DIR")))?;
    let text = text.strip_suffix(b"\n").unwrap_or(&text);
    Ok(text.split(|byte| *byte == b'\n').map(<[u8]>::to_vec).collect())
}

/// A text in which `\xNN` stands for one byte.
pub fn bytes_of(text: &str) -> Vec<u8> {
    let mut pieces = text.split("\\x");
    let mut bytes = pieces.next().unwrap_or_default().as_bytes().to_vec();
    for piece in pieces {
        bytes.push(u8::from_str_radix(&piece[..2], 16).unwrap());
        bytes.extend_from_slice(&piece.as_bytes()[2..]);
    }
    bytes
}
