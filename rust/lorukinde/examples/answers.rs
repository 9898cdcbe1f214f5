//! What the crate answers, for the tests of the Python package: for each line of standard input, a manner's number and a sheet in
//! hexadecimal, its parts with their records, meanings and sentences, and the answer for the sheet as a whole.
use lorukinde::{explain_meant, parts_in, read_sheet, Language, Manner, Record};
use std::io::{self, BufRead, Write};

fn main() -> io::Result<()> {
    let mut out = io::BufWriter::new(io::stdout().lock());
    for line in io::stdin().lock().lines() {
        let line = line?;
        let (number, digits) = line.split_once(' ').expect("a manner and a sheet");
        let manner = [Manner::Edition1, Manner::Edition2, Manner::House][number.parse::<usize>().expect("a number") - 1];
        let sheet: Vec<u8> =
            (0..digits.len()).step_by(2).map(|i| u8::from_str_radix(&digits[i..i + 2], 16).expect("hexadecimal")).collect();
        answer(&mut out, manner, &sheet)?;
        out.flush()?;
    }
    Ok(())
}

fn answer(out: &mut impl Write, manner: Manner, sheet: &[u8]) -> io::Result<()> {
    for part in parts_in(manner, sheet) {
        writeln!(out, "part {:?}", part.range)?;
        match &part.reading {
            Ok(reading) => {
                writeln!(out, "warnings {}", reading.warnings())?;
                for rule in reading.rules() {
                    writeln!(out, "rule {} {:?}", rule.place, rule.head)?;
                    writeln!(out, "comment {:?}", rule.comment().map(|comment| comment.to_vec()))?;
                    rule.items()
                        .zip(rule.records())
                        .try_for_each(|(item, record)| writeln!(out, "item {item:?} {:?}", record.words()))?;
                    writeln!(out, "says {}", rule.said(Language::English))?;
                }
            }
            Err(refusal) => {
                let position = refusal.position(sheet);
                writeln!(out, "refused {} {} {} {}", refusal.number, refusal.place, position.line, position.column)?;
                writeln!(out, "says {}", explain_meant(manner, sheet, part.range.clone(), refusal))?;
            }
        }
    }
    let mut table = vec![Record::EMPTY; sheet.len()];
    match read_sheet(sheet, &mut table) {
        Ok(reading) => writeln!(out, "whole {} {}", reading.records().len(), reading.warnings())?,
        Err(refusal) => writeln!(out, "whole refused {} {}", refusal.number, refusal.place)?,
    }
    writeln!(out, "end")
}
