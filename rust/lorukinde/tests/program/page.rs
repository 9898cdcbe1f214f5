//! `lorukinde page`: what stands in a page, whatever the sheets are. What a browser makes of it is tried by tools/page_tests.sh.
use std::collections::BTreeSet;
use std::os::unix::ffi::OsStringExt;

use crate::run::{file, lorukinde, run};

fn page_of(year: i32, sheets: impl AsRef<[u8]>) -> String {
    run(&["page", "--year", &year.to_string()], sheets).out
}

/// The tags of a page, with 0 for each number.
fn tags(page: &str) -> BTreeSet<String> {
    let inner = page.split('<').skip(1).map(|piece| piece.split_once('>').expect("a tag that ends").0);
    inner
        .map(|tag| tag.split(|c: char| c.is_ascii_digit()).filter(|piece| !piece.is_empty()).collect::<Vec<_>>().join("0"))
        .collect()
}

/// A row of a calendar: the week's number, and each day with its column and its mark.
struct Row {
    week: i32,
    days: Vec<(usize, i32, Mark)>,
}

#[derive(Clone, Copy, Debug, PartialEq)]
enum Mark {
    No,
    Yes,
    Undecided,
}

/// A calendar, by its months.
type Calendar = Vec<Vec<Row>>;

/// The calendars of a page.
fn calendars(page: &str) -> Vec<Calendar> {
    let year = |text: &str| text.split_once("</div>").unwrap().0.split("<caption>").skip(1).map(month).collect();
    page.split("<div class=year>").skip(1).map(year).collect()
}

fn month(table: &str) -> Vec<Row> {
    table.split_once("</table>").unwrap().0.split("<tr>").skip(2).map(row).collect()
}

fn row(row: &str) -> Row {
    let mut cells = row.split("<td");
    let week = cells.next().unwrap().rsplit('>').next().unwrap().parse().unwrap();
    let (mut column, mut days) = (0, Vec::new());
    for cell in cells {
        let (attribute, text) = cell.split_once('>').unwrap();
        match attribute.trim() {
            "" => days.push((column, text.parse().unwrap(), Mark::No)),
            "class=y" => days.push((column, text.parse().unwrap(), Mark::Yes)),
            "class=h" => days.push((column, text.parse().unwrap(), Mark::Undecided)),
            blank => column += blank.strip_prefix("colspan=").unwrap().parse::<usize>().unwrap() - 1,
        }
        column += 1;
    }
    Row { week, days }
}

/// The days of each month that are marked so.
fn marked_in(calendar: &Calendar, mark: Mark) -> Vec<Vec<i32>> {
    let of = |rows: &Vec<Row>| rows.iter().flat_map(|row| &row.days).filter(|day| day.2 == mark).map(|day| day.1).collect();
    calendar.iter().map(of).collect()
}

/// The same, of a page's first calendar.
fn marked(page: &str, mark: Mark) -> Vec<Vec<i32>> {
    marked_in(&calendars(page)[0], mark)
}

#[test]
fn the_operators_year() {
    let page = page_of(2021, "2020 Dec 25-05 off\n");
    let nothing = vec![Vec::new(); 11];
    assert_eq!(marked(&page, Mark::Yes), [vec![vec![1, 2, 3, 4, 5]], nothing.clone()].concat());
    assert_eq!(marked(&page_of(2020, "2020 Dec 25-05 off"), Mark::Yes), [nothing, vec![(25..=31).collect()]].concat());
    for words in [
        "<p class=words>closed: 25 December 2020 to 5 January 2021<p class=ends>",
        "First day: <b>Friday 25 December 2020</b><br>Last day: <b>Tuesday 5 January 2021</b>",
        "<p>Applies on 5 days of 2021: 1 to 5 January.<details open class=calendar>",
    ] {
        assert!(page.contains(words), "{words}");
    }
    assert!(page_of(2022, "2020 Dec 25-05 off").contains("<p>Applies on no day of 2022."));
}

/// The columns and the weeks of the calendar are those by which the library decides weekdays and weeks.
#[test]
fn the_calendar_is_the_librarys() {
    const WEEKS: [i32; 5] = [1, 2, 26, 52, 53];
    let weeks = WEEKS.map(|week| format!("week {week}\n")).concat();
    let sheets = format!("24/7\nMo\nTu\nWe\nTh\nFr\nSa\nSu\n{weeks}");
    for year in [1900, 1904, 1999, 2000, 2020, 2021, 2024, 2026, 2027, 2032, 2100, 9999] {
        let calendars = calendars(&page_of(year, &sheets));
        let (always, weekdays, weeks) = (&calendars[0], &calendars[1..8], &calendars[8..]);
        let february = if year % 4 == 0 && (year % 100 != 0 || year % 400 == 0) { 29 } else { 28 };
        let days: Vec<usize> = marked_in(always, Mark::Yes).iter().map(Vec::len).collect();
        assert_eq!(days, [31, february, 31, 30, 31, 30, 31, 31, 30, 31, 30, 31], "{year}");
        for (column, calendar) in weekdays.iter().enumerate() {
            let is_so = |row: &Row| row.days.iter().all(|day| (day.2 == Mark::Yes) == (day.0 == column));
            assert!(calendar.iter().flatten().all(is_so), "column {column} in {year}");
        }
        for (week, calendar) in WEEKS.iter().zip(weeks) {
            let is_so = |row: &Row| row.days.iter().all(|day| (day.2 == Mark::Yes) == (row.week == *week));
            assert!(calendar.iter().flatten().all(is_so), "week {week} in {year}");
        }
        assert_eq!(weeks.len(), WEEKS.len());
    }
}

#[test]
fn ends_of_dates() {
    let ends = |sheet: &str| {
        let page = page_of(2021, sheet);
        let (_, rest) = page.split_once("<p class=ends>").expect(sheet);
        rest.split_once("<p").unwrap().0.replace("<b>", "").replace("</b>", "")
    };
    assert_eq!(ends("Dec 25-05 off"), "First day: 25 December, every year<br>Last day: 5 January, every year");
    assert_eq!(ends("2021 Jan 5 off"), "First and last day: Tuesday 5 January 2021");
    assert_eq!(ends("Feb 29 off"), "First and last day: 29 February, every year");
    assert_eq!(ends("Feb 30 off"), "First and last day: 30 February, every year (a day that no calendar has)");
    assert_eq!(ends("9999 Dec 31-1 off"), "First day: Friday 31 December 9999<br>Last day: Saturday 1 January 10000");
    assert_eq!(ends("2020 Dec 25-Jan 5 off"), "First day: Friday 25 December 2020<br>Last day: 5 January");
    assert_eq!(ends("2021 easter -2 days off"), "First and last day: 2 days before Easter 2021");
    assert!(!page_of(2021, "Dec off").contains("class=ends"));
}

#[test]
fn undecided_days() {
    let page = page_of(2021, "Mo,PH off");
    let both = [marked(&page, Mark::Yes), marked(&page, Mark::Undecided)].map(|months| months.concat().len());
    assert_eq!(both, [52, 365 - 52]);
    assert!(page.contains("<ul><li>public holidays: which days are public holidays is not known here</ul>"));
    assert!(!page_of(2021, "Mo off").contains("<td class=h>"));
}

/// The tags of pages of few and of many sheets in which nothing is markup.
fn own_tags() -> BTreeSet<String> {
    let harmless =
        "Mo \"x\"; x\nmo-Fr 9-17, Tu off \"x\" || PH unknown; 2020 Dec 25-05 off; Jan 1; Mo,\n\n10:00\nMo 10:00-12:00\n";
    [harmless.into(), harmless.repeat(20)].iter().flat_map(|sheets: &String| tags(&page_of(2021, sheets))).collect()
}

/// Nothing of a sheet or of a file's name is markup: a page has no tag that a page of harmless sheets does not have.
#[test]
fn sheets_that_are_markup() {
    let own = own_tags();
    let texts = [
        "<script>alert(1)</script>",
        "</p></section></main><img src=x onerror=alert(1)>",
        "</title></style><style>*{display:none}</style>",
        "<!--",
        "-->",
        "]]>",
        "<b",
        "&lt;b&gt;&#60;i&#62;",
        "`<b>`",
        "' onclick='alert(1)",
    ];
    for text in texts {
        let quoted = text.replace('"', "'");
        let sheet =
            format!("{text}\nMo \"{quoted}\"; \"{quoted}\": Mo off\nMo {text}; `{text}`; Mo off \"{quoted}\" {text}\n\"{text}");
        let page = page_of(2021, &sheet);
        let foreign: Vec<String> = tags(&page).difference(&own).cloned().collect();
        assert_eq!(foreign, Vec::<String>::new(), "{text}");
    }
    let path = file(b"<b>&'\"\xff.txt", b"Mo\n<i>\n");
    let page = lorukinde().arg("page").arg("--year").arg("2021").arg(&path).run("").out;
    assert!(tags(&page).is_subset(&own) && page.contains("/&lt;b&gt;&amp;&#39;&quot;\u{fffd}.txt, line 1</small>"));
    let missing = std::ffi::OsString::from_vec(b"/nowhere/<b>\xff".to_vec());
    let ran = lorukinde().arg("page").arg(missing).arg("-").run("Mo");
    assert_eq!(ran.code, 2);
    assert!(ran
        .out
        .contains("<p class=unread>This input could not be read, and what stands in it is missing here: /nowhere/&lt;b&gt;"));
    assert!(ran.out.contains("<p class=words>open: Monday, all day<p"));
}

/// Any byte but the line's end, alone and in a note: the page is UTF-8 without controls, and has no other tags.
#[test]
fn any_bytes() {
    let sheets = (0..=255)
        .filter(|byte| *byte != b'\n')
        .flat_map(|byte| [&[byte, b'\n'][..], &[b'M', b'o', b' ', b'"', byte, b'"', b'\n']].concat());
    let ran = run(&["page", "--year", "2021"], sheets.collect::<Vec<u8>>());
    assert!(std::str::from_utf8(&ran.bytes).is_ok());
    assert!(ran.out.chars().all(|letter| !letter.is_control() || "\n\t".contains(letter)));
    assert_eq!(tags(&ran.out).difference(&own_tags()).collect::<Vec<_>>(), Vec::<&String>::new());
}

#[test]
fn sizes() {
    let common = "Mo-Fr 06:30-22:00; Sa,Su 08:00-20:00; 2020 Dec 25-05 off";
    assert!(page_of(2021, common).len() < 30_000);
    // The largest calendars are those of which every day is marked.
    assert!(page_of(2021, ["PH off"; 6].join("; ")).len() < 60_000);
    // After many calendars one that stands already is linked to.
    let many = page_of(2021, "Mo; Tu off\n".repeat(60));
    assert_eq!(many.matches("<div class=year>").count(), 100);
    assert_eq!(many.matches("<p><a href=#s1r1>The same days as in the calendar of sheet 1, rule 1</a></article>").count(), 10);
    // A calendar of another state or of other days is none of these.
    assert_eq!(page_of(2021, "Mo; Tu off\n".repeat(50) + "Mo off\nWe\nTu off").matches("<div class=year>").count(), 102);
}

#[test]
fn lists() {
    let page = page_of(2021, "Mo\nTu x; We y\n\n");
    assert!(page.contains("<p>3 sheets. Read by edition 1 of the sheet rules. <b>2 sheets have a part that was not read.</b>"));
    assert!(page.contains(
        "<li><a href=#s1>Mo</a><li><a href=#s2>Tu x; We y</a> <b>2 parts were not read</b><li><a href=#s3>(nothing)</a>"
    ));
    assert!(page.contains("<li><a href=#s2>2</a> <li><a href=#s3>3</a> </ul>"));
    assert!(!page.contains("<details open class=calendar>"));
    // A sheet alone has its calendars open and no list; one with many rules has them closed.
    assert!(page_of(2021, "Mo").contains("<details open class=calendar>") && !page_of(2021, "Mo").contains("<nav"));
    assert!(!page_of(2021, ["Mo"; 7].join("; ")).contains("<details open class=calendar>"));
    // Long sheets are cut where they are listed, and of one that is too long the beginning is shown.
    let long = page_of(2021, format!("Mo \"{}\"\n{}\n", "x".repeat(200), "y".repeat(5000)));
    assert!(long.contains(&format!("<a href=#s1>Mo &quot;{}\u{2026}</a>", "x".repeat(116))));
    assert!(long.contains("<small>\u{2026} (5000 bytes in all)</small>"));
    assert!(page_of(2021, "").contains("<p>There is no sheet. Read by edition 1"));
}

#[test]
fn marks() {
    let sheet = |sheet: &str| {
        let page = page_of(2021, format!("{sheet}\n"));
        let (_, rest) = page.split_once("<p class=sheet dir=ltr>").unwrap();
        rest.split_once("<ol class=findings>").unwrap().0.to_string()
    };
    assert_eq!(sheet("Mo-Fr 9-17; Tu"), "<u>Mo-Fr </u><u><mark>9-17</mark></u><sup><a href=#s1f1>1</a></sup>; Tu");
    assert_eq!(sheet("Mo;  Tu,We, "), "Mo;  <u>Tu,We, </u><mark></mark><sup><a href=#s1f1>1</a></sup>");
    assert_eq!(sheet(""), "<mark></mark><sup><a href=#s1f1>1</a></sup><small>(nothing)</small>");
    assert_eq!(sheet("mo; x"), "<i>mo</i><sup><a href=#s1f1>1</a></sup>; <u><mark>x</mark></u><sup><a href=#s1f2>2</a></sup>");
    assert_eq!(sheet("\u{e9}"), "<u><mark>\u{e9}</mark></u><sup><a href=#s1f1>1</a></sup>");
}

#[test]
fn manners_and_languages() {
    let with = |arguments: &[&str], sheet: &str| run(&[&["page", "--year=2021"], arguments].concat(), sheet);
    assert!(with(&["--edition", "2"], "Mo 10:00").out.contains("Read by edition 2"));
    assert!(with(&["--house"], "Mo 10:00+").out.contains("Not read, refusal 22 at character 4:"));
    assert!(with(&[], "Mo 10:00").out.contains("<p class=write>Edition 2 of the rules takes it."));
    for (code, words) in [
        ("en", "Applies on 5 days of 2021: 1 to 5 January."),
        ("de", "Gilt an 5 Tagen im Jahr 2021: 1. bis 5. Januar."),
        ("fr", "S\u{2019}applique 5 jours de 2021 : du 1er au 5 janvier."),
        ("nl", "Geldt op 5 dagen van 2021: 1 tot en met 5 januari."),
    ] {
        let page = with(&["--language", code], "2020 Dec 25-05 off").out;
        assert!(page.starts_with(&format!("<!DOCTYPE html><html lang={code}>")) && page.contains(words), "{code}");
    }
}

#[test]
fn wrong_calls() {
    for arguments in [
        &["page", "--year"][..],
        &["page", "--year", "1899"],
        &["page", "--year", "10000"],
        &["page", "--year=x"],
        &["page", "--language"],
        &["page", "--language", "xx"],
        &["say", "--year", "2021"],
    ] {
        let ran = run(arguments, "Mo\n");
        assert_eq!((ran.code, ran.out.as_str(), ran.err.lines().count()), (2, "", 1), "{arguments:?}: {}", ran.err);
    }
    // Without a year it is the one that it is now.
    let now = run(&["page"], "Mo").out;
    let (_, year) = now.split_once("<h1>Opening hours in ").unwrap();
    assert!((2026..=9999).contains(&year[..4].parse::<i32>().unwrap()));
}
