//! What is said in plain words.
use lorukinde::{parts, parts_in, Language, Manner, Refusal};

fn said(sheet: &str) -> Vec<String> {
    parts(sheet.as_bytes())
        .flat_map(|part| match part.reading {
            Ok(reading) => reading.rules().map(|rule| rule.to_string()).collect::<Vec<_>>(),
            Err(refusal) => vec![refusal.to_string()],
        })
        .collect()
}

#[test]
fn rules_in_plain_words() {
    for (sheet, words) in [
        ("2020 Dec 25-05 off", "closed: 25 December 2020 to 5 January 2021"),
        ("Dec 25-25", "open: 25 December"),
        ("2020 Dec 25+ off", "closed: from 25 December 2020 on"),
        ("Dec 25+ off", "closed: 25 December to 31 December"),
        ("24/7", "open: always"),
        ("off", "closed: always"),
        ("unknown \"ask\"", "unknown: always, note \"ask\""),
        ("\"pool\": Mo", "open: Monday, note \"pool\""),
        ("Mo-Fr 09:00-18:00", "open: Monday to Friday, 09:00 to 18:00"),
        (
            "Mo,We,PH 09:00-12:00,14:00+",
            "open: Monday and Wednesday and public holidays, 09:00 to 12:00 and 14:00 to 24:00 or later",
        ),
        ("Fr[3-1] off", "closed: Friday"),
        ("Fr[1,3,-1] +2 days", "open: 2 days after the 1st, 3rd and last Friday of the month"),
        ("Tu[-2]", "open: the 2nd last Tuesday of the month"),
        ("SH -1 day off", "closed: 1 day before school holidays"),
        ("22:00-26:00", "open: 22:00 to 02:00 the next day"),
        ("18:00-09:00", "open: 18:00 to 09:00 the next day"),
        ("18:00-0:00+", "open: 18:00 to 00:00 the next day or later"),
        ("18:00-18:00", "open: 18:00 to 18:00"),
        ("sunset-09:00", "open: sunset to 09:00"),
        ("10:00-48:00", "open: 10:00 to 24:00 the next day"),
        ("10:00-12:00/30", "open: 10:00 to 12:00 every 30 minutes"),
        ("(sunrise+1:30)-sunset", "open: 90 minutes after sunrise to sunset"),
        ("dawn-(dusk-0:01)+", "open: dawn to 1 minute before dusk or later"),
        ("2020", "open: 2020"),
        ("2020+ off", "closed: from 2020 on"),
        ("2020-2030/2 week 1-10/3,12", "open: 2020 to 2030 in steps of 2, weeks 1 to 10 in steps of 3 and week 12"),
        ("2020 Jan-Mar", "open: January to March of 2020"),
        ("Nov-Feb: Su", "open: November to February, Sunday"),
        ("easter -2 days off", "closed: 2 days before Easter"),
        ("2021 easter", "open: Easter 2021"),
        ("Jan Mo[1]-Feb We[-1]", "open: the 1st Monday in January to the last Wednesday in February"),
        ("Dec 1+Su +3 days", "open: the Sunday on or after 3 days after 1 December"),
        ("Dec 24-Mo", "open: the Monday on or before 24 December"),
    ] {
        assert_eq!(said(sheet), [words], "{sheet}");
    }
}

#[test]
fn what_edition_2_adds() {
    for (sheet, words) in [
        ("Mo 10:00,sunset", "open: Monday, at 10:00 and at sunset"),
        ("(dawn-0:30) off", "closed: at 30 minutes before dawn"),
        ("Mo-Fr[1,-1]", "open: the 1st and last Monday to Friday of the month"),
        ("Sa-Su -2 days", "open: 2 days before Saturday to Sunday"),
    ] {
        let rules: Vec<_> = parts_in(Manner::Edition2, sheet.as_bytes())
            .map(|part| part.reading.unwrap().rules().next().unwrap().to_string())
            .collect();
        assert_eq!(rules, [words], "{sheet}");
    }
}

#[test]
fn a_slip_loses_its_part_alone() {
    assert_eq!(
        said("Mo-Fr 09:00-18:00; 2021-2020 off; Sa 10:00-16:00, Su || unknown"),
        [
            "open: Monday to Friday, 09:00 to 18:00",
            "the years in the item 19 bytes into the sheet run backwards: the first year is after the last",
            "open: Saturday, 10:00 to 16:00",
            "also open: Sunday",
            "otherwise unknown: always",
        ]
    );
}

#[test]
fn comments_can_be_shown() {
    let comment = "\u{e9}\u{20ac}\u{1d11e}";
    assert_eq!(said(&format!("off \"{comment}\"")), [format!("closed: always, note \"{comment}\"")]);
    let refused: Vec<_> = parts(b"Mo;Tu \"\xff\"").map(|part| part.reading.err()).collect();
    assert_eq!(refused, [None, Some(Refusal { number: Refusal::ILL_FORMED_COMMENT, place: 6 })]);
}

fn said_in_english(sheet: &str) -> Vec<String> {
    parts(sheet.as_bytes())
        .flat_map(|part| match part.reading {
            Ok(reading) => reading.rules().map(|rule| rule.said(Language::English)).collect::<Vec<_>>(),
            Err(refusal) => vec![refusal.to_string()],
        })
        .collect()
}

#[test]
fn rules_in_plain_words_of_english() {
    for (sheet, words) in [
        ("2020 Dec 25-05 off", "closed: 25 December 2020 to 5 January 2021"),
        ("2020 Dec 25-Jan 5 off", "closed: 25 December 2020 to 5 January 2021"),
        ("Dec 25-25", "open: 25 December every year, all day"),
        ("Dec 24-Jan 6 off", "closed: 24 December to 6 January every year"),
        ("2020-2022 Dec 24 off", "closed: 2020 to 2022, 24 December"),
        ("2020 Dec 25+ off", "closed: from 25 December 2020 on"),
        ("Dec 25+ off", "closed: 25 December to 31 December every year"),
        ("Dec 25 Mo", "open: 25 December if it is a Monday, all day"),
        ("24/7", "open: always"),
        ("off", "closed: always"),
        ("unknown \"ask\"", "unknown: always, note \"ask\""),
        ("\"pool\": Mo", "open: Monday, all day, note \"pool\""),
        ("\"pool\": Mo \"ladies\"", "open: Monday, all day, note \"ladies\" (in place of \"pool\")"),
        ("Mo-Fr 09:00-18:00", "open: Monday to Friday, 09:00 to 18:00"),
        ("Mo,We,Fr off", "closed: Monday, Wednesday and Friday"),
        ("Mo,We,PH 09:00-12:00,14:00+", "open: Monday, Wednesday and public holidays, 09:00 to 12:00 and from 14:00, end open"),
        ("Fr[3-1] off", "closed: Friday"),
        ("Fr[1,3,-1] +2 days", "open: 2 days after the 1st, 3rd and last Friday of the month, all day"),
        ("Tu[-2]", "open: the 2nd last Tuesday of the month, all day"),
        ("SH -1 day off", "closed: 1 day before school holidays"),
        ("22:00-26:00", "open: every day, 22:00 to 02:00 the next day"),
        ("18:00-09:00", "open: every day, 18:00 to 09:00 the next day"),
        ("18:00-0:00+", "open: every day, 18:00 to 00:00 the next day or later"),
        ("18:00-18:00", "open: every day, 18:00 to 18:00 the next day"),
        ("sunset-09:00", "open: every day, sunset to 09:00"),
        ("10:00-48:00", "open: every day, 10:00 to 24:00 the next day"),
        ("10:00+", "open: every day, from 10:00, end open"),
        ("10:00-12:00/30", "open: every day, 10:00 to 12:00 every 30 minutes"),
        ("(sunrise+1:30)-sunset", "open: every day, 90 minutes after sunrise to sunset"),
        ("dawn-(dusk-0:01)+", "open: every day, dawn to 1 minute before dusk or later"),
        ("2020", "open: 2020, all day"),
        ("2020+ off", "closed: from 2020 on"),
        (
            "2020-2030/2 week 1-10/3,12",
            "open: every 2nd year from 2020 to 2030, every 3rd week from week 1 to 10 and week 12, all day",
        ),
        ("2020 Jan-Mar", "open: January to March of 2020, all day"),
        ("Nov-Feb: Su", "open: November to February, Sunday, all day"),
        ("May off", "closed: May"),
        ("easter -2 days off", "closed: 2 days before Easter every year"),
        ("2021 easter", "open: Easter 2021, all day"),
        ("Jan Mo[1]-Feb We[-1]", "open: the 1st Monday in January to the last Wednesday in February every year, all day"),
        ("2020 Dec 1+Su +3 days", "open: 3 days after 1 December 2020, then on to the Sunday on or after it, all day"),
        ("2020 Dec 24-Mo", "open: 24 December 2020, then back to the Monday on or before it, all day"),
    ] {
        assert_eq!(said_in_english(sheet), [words], "{sheet}");
    }
}

#[test]
fn what_edition_2_adds_in_english() {
    for (sheet, words) in [
        ("Mo 10:00,sunset", "open: Monday, at 10:00 and at sunset"),
        ("(dawn-0:30) off", "closed: every day, at 30 minutes before dawn"),
        ("Mo-Fr[1,-1]", "open: the 1st and last Monday to Friday of the month, all day"),
        ("Sa-Su -2 days", "open: 2 days before Saturday to Sunday, all day"),
    ] {
        let rules: Vec<_> = parts_in(Manner::Edition2, sheet.as_bytes())
            .map(|part| part.reading.unwrap().rules().next().unwrap().said(Language::English))
            .collect();
        assert_eq!(rules, [words], "{sheet}");
    }
}

#[test]
fn a_slip_loses_its_part_alone_in_english() {
    assert_eq!(
        said_in_english("Mo-Fr 09:00-18:00; 2021-2020 off; Sa 10:00-16:00, Su || unknown"),
        [
            "open: Monday to Friday, 09:00 to 18:00",
            "the years in the item 19 bytes into the sheet run backwards: the first year is after the last",
            "open: Saturday, 10:00 to 16:00",
            "also open: Sunday, all day",
            "otherwise unknown: always",
        ]
    );
}

#[test]
fn in_other_languages() {
    let sheet = b"Mo,We,Fr 22:00-02:00,14:00+; 2020 Dec 25-01 off \"Xmas\"; PH";
    for (code, rules) in [
        (
            "de",
            [
                "geöffnet: Montag, Mittwoch und Freitag, 22:00 bis 02:00 am nächsten Tag und ab 14:00, Ende offen",
                "geschlossen: 25. Dezember 2020 bis 1. Januar 2021, Hinweis „Xmas“",
                "geöffnet: Feiertage, ganztägig",
            ],
        ),
        (
            "fr",
            [
                "ouvert: lundi, mercredi et vendredi, 22:00 à 02:00 le lendemain et à partir de 14:00, sans heure de fin",
                "fermé: 25 décembre 2020 à 1er janvier 2021, note « Xmas »",
                "ouvert: jours fériés, toute la journée",
            ],
        ),
        (
            "nl",
            [
                "open: maandag, woensdag en vrijdag, 22:00 tot 02:00 de volgende dag en vanaf 14:00, einde open",
                "gesloten: 25 december 2020 tot en met 1 januari 2021, opmerking “Xmas”",
                "open: feestdagen, de hele dag",
            ],
        ),
    ] {
        let language = Language::from_code(code).unwrap();
        let said = parts(sheet).map(|part| part.reading.unwrap().rules().next().unwrap().said(language));
        assert_eq!(said.collect::<Vec<_>>(), rules, "{code}");
    }
    assert_eq!((Language::from_code("en"), Language::from_code("xx")), (Some(Language::English), None));
}
