//! Remarks: accepted, but is it meant?
mod common;
use common::lines_of;
use lorukinde::{parts, remarks, Manner};

fn found(sheet: &str) -> Vec<(usize, String)> {
    assert!(parts(sheet.as_bytes()).all(|part| part.reading.is_ok()), "{sheet}");
    remarks(Manner::Edition1, sheet.as_bytes()).iter().map(|remark| (remark.place, remark.to_string())).collect()
}

#[test]
fn what_is_remarked_on() {
    for (sheet, place, sentence) in [
        (
            "2020 Dec 25-05 off",
            12,
            "the 5th is in January 2021: the first 5th that does not come before 25 December 2020; write `2021 Jan 5`, not `05`",
        ),
        ("Jan 31-30 off", 7, "the 30th is in March: the first 30th that does not come before 31 January; write `Mar 30`, not `30`"),
        (
            "2020 Dec 25-Jan 5 off",
            0,
            "5 January has no year, though the start has one: taken for 2021; write `2020 Dec 25-2021 Jan 5`, not `2020 Dec 25-Jan 5`",
        ),
        (
            "Dec 25-2021 Jan 5 off",
            0,
            "25 December has no year, though the end has one: taken for 2020; write `2020 Dec 25-2021 Jan 5`, not `Dec 25-2021 Jan 5`",
        ),
        ("Dec 25, 2020 off", 8, "`2020 off` is a rule of its own, which holds all year; write `2020 Dec 25 off`, not `Dec 25, 2020 off`"),
        ("2020, Dec 25 off", 0, "`2020` is a rule of its own, which holds all year; write `2020 Dec 25 off`, not `2020, Dec 25 off`"),
        ("Feb 30 off", 0, "February has no day 30"),
        ("2021 Feb 29 off", 0, "February 2021 has no day 29"),
        ("2021 Jan 1-2020 Jan 1 off", 0, "1 January 2021 comes after 1 January 2020: no day is meant"),
        ("Mo-Fr, 9:00-18:00", 7, "`9:00-18:00` holds on every day: after `,` a rule begins, and this one has no days; write a blank, not `,`"),
        (
            "Mo-Fr 9:00-12:00; 14:00-18:00",
            18,
            "`14:00-18:00` holds on every day: after `;` a rule begins, and this one has no days; write `,`, not `;`",
        ),
        (
            "Mo, We, Fr 07:00-09:00",
            0,
            "`Mo` is a rule of its own: open all day, since no times stand with it; write `,We,`, not `, We,`: a list has commas without blanks",
        ),
        ("Mo-Fr 09:00-18:00; Sa", 19, "`Sa` is a rule of its own: open all day, since no times stand with it"),
        (
            "\"Mo-Fr 09:00-18:00\"",
            0,
            "the whole sheet stands between quotes, so it is a note, and open always; write `Mo-Fr 09:00-18:00`, not `\"Mo-Fr 09:00-18:00\"`",
        ),
        (
            "Mo-Fr 08:00-12:00; We 14:00-18:00",
            19,
            "on Wednesday this takes the place of `Mo-Fr 08:00-12:00`, whose times do not remain; after `, ` instead of `;` both hold",
        ),
        (
            "PH off; Mo-Fr 08:00-20:00",
            8,
            "this takes the place of `PH off` on the days that both have, so it is open there; if it is to be closed, write that rule last",
        ),
    ] {
        let found = found(sheet);
        assert!(found.contains(&(place, sentence.to_string())), "{sheet}: {found:?}");
    }
}

#[test]
fn what_is_plainly_meant() {
    for sheet in [
        "Mo-Fr 09:00-17:00; PH off",
        "Mo-Sa 10:00-20:00; Tu 10:00-14:00",
        "Mo-Sa 10:00-20:00; Tu off",
        "Mo-Fr 08:00-12:00, We 14:00-18:00",
        "10:00-18:00; Dec 25 off",
        "Mo-Su open; Dec 25-26 off",
        "Dec 24-Jan 6 off",
        "2020 Dec 24-26 off",
        "Mo-Fr 09:00-17:00 || unknown",
        "\"by appointment\"",
        "Mo-Fr 22:00-06:00",
        "2020 Feb 29 off",
        "Mo,Tu",
    ] {
        assert_eq!(found(sheet), [], "{sheet}");
    }
}

/// A remark that stands on every other sheet is read by nobody.
#[test]
fn few_sheets_have_one() {
    let count = |list: &str| {
        let sheets: Vec<_> =
            lines_of(list).unwrap().into_iter().filter(|sheet| parts(sheet).all(|part| part.reading.is_ok())).collect();
        let remarked = sheets.iter().filter(|sheet| !remarks(Manner::Edition1, sheet).is_empty()).count();
        println!("{list}: {remarked} of {} accepted sheets", sheets.len());
        (remarked, sheets.len())
    };
    let (common, all) = count("tools/oracle/common.txt");
    assert!(common * 10 <= all);
    let (wiki, all) = count("tools/sheets_of_the_wiki.txt");
    assert!(wiki * 20 <= all);
}
