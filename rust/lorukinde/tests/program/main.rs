//! The program `lorukinde`, run as it is built.
#[path = "../common/mod.rs"]
mod common;
mod json;
mod page;
mod run;

use json::Json;
use run::{file, lorukinde, run, Ran};
use std::os::unix::ffi::{OsStrExt, OsStringExt};

const SAID: &str = "\
Mo-Fr 09:00-18:00; 2020 Dec 25-5x off; sa 22:00-02:00, Su || unknown
  open: Monday to Friday, 09:00 to 18:00
  not read, refusal 3 at character 33:
    Mo-Fr 09:00-18:00; 2020 Dec 25-5x off; sa 22:00-02:00, Su || unknown
                                    ^
    `x` does not fit here: expected weeks, weekdays, times (`09:00-18:00`), `off`, a note in quotes, or `;` and the next rule
  open: Saturday, 22:00 to 02:00 the next day
  also open: Sunday
  otherwise unknown: always
  (`sa` is usually written `Sa`)
";

#[test]
fn say() {
    let sheet = SAID.lines().next().unwrap();
    assert_eq!(run(&["say"], sheet), Ran::new(1, SAID, ""));
    assert_eq!(run(&["say"], "Mo\n"), Ran::new(0, "Mo\n  open: Monday\n", ""));
    // The caret stands under the place, by characters; controls are shown, and not sent to the terminal.
    let said = run(&["say"], "\u{e9}\t\u{1b}Mo\n").out;
    assert!(
        said.starts_with("\u{e9}\t\u{241b}Mo\n  not read, refusal 3 at character 1:\n    \u{e9}\t\u{241b}Mo\n    ^\n"),
        "{said}"
    );
}

#[test]
fn check() {
    let input = "Mo-Fr 09:00-18:00\nmo \"\u{e4}\u{f6}\"; TU 9-17\n\n2021-2020";
    let expected = [
        "<stdin>:2:1: 0: `mo` is usually written `Mo`",
        "<stdin>:2:13: 3: `9` does not fit here: expected times (`09:00-18:00`), `off`, a note in quotes, or `;` and the next rule; \
         write `09:00-17:00`, not `9-17`: a time has hours and minutes",
        "<stdin>:3:1: 11: nothing stands here: expected a rule (`Mo-Fr 09:00-18:00`)",
        "<stdin>:4:1: 6: the years `2021-2020` run backwards: the first is after the last",
    ];
    assert_eq!(run(&["check"], input), Ran::new(1, &(expected.join("\n") + "\n"), ""));
    // Names with unusual capitals alone are no refusal.
    assert_eq!(run(&["check"], "mo"), Ran::new(0, "<stdin>:1:1: 0: `mo` is usually written `Mo`\n", ""));
    assert_eq!(run(&["check"], ""), Ran::new(0, "", ""));
}

/// Byte 10 ends a line and byte 13 before it is no part of the sheet; at the end of the input neither is needed.
#[test]
fn line_ends() {
    for input in ["Mo\nTu\n", "Mo\r\nTu\r\n", "Mo\nTu", "Mo\r\nTu"] {
        assert_eq!(run(&["say"], input), Ran::new(0, "Mo\n  open: Monday\nTu\n  open: Tuesday\n", ""), "{input:?}");
    }
    // Elsewhere byte 13 is a byte of the sheet.
    assert!(run(&["check"], "Mo\r\r\n").out.starts_with("<stdin>:1:3: 3: "));
    assert!(run(&["check"], "Mo\r").out.starts_with("<stdin>:1:3: 3: "));
    assert!(run(&["check"], "Mo\0\n").out.starts_with("<stdin>:1:3: 3: the byte 0x00 does not fit here"));
    assert_eq!(run(&["check"], "\n").out.lines().count(), 1);
    assert_eq!(run(&["check"], "\r\n\n").out.lines().count(), 2);
}

#[test]
fn long_sheets() {
    let note = |bytes: usize| format!("\"{}\"", "c".repeat(bytes - 2));
    for end in ["", "\n", "\r\n"] {
        assert_eq!(run(&["check"], note(4096) + end), Ran::new(0, "", ""));
        assert_eq!(run(&["check"], note(4097) + end), Ran::new(1, "<stdin>:1:1: 1: the sheet is longer than 4,096 bytes\n", ""));
    }
    let object = json::parse(run(&["json"], note(1_000_000) + "\nMo\n").out.lines().next().unwrap());
    assert_eq!((&object["bytes"], &object["parts"][0]["range"][1]), (&Json::Number(1_000_000), &Json::Number(1_000_000)));
    assert!(object["sheet"].text().len() < 5000);
    // A sheet with as many records as there can be has room.
    assert_eq!(run(&["check"], "Mo;".repeat(1365) + "\n").out.lines().count(), 1);
    assert_eq!(run(&["check"], format!("week 1{}", ",2".repeat(2045))), Ran::new(0, "", ""));
}

#[test]
fn files_and_standard_input() {
    let (one, two) = (file(b"one.txt", b"Mo\nx\n"), file(b"two \xff.txt", b"Tu 10:00\n"));
    let ran = lorukinde().arg("check").arg(&one).arg("-").arg(&two).run("y");
    let lines: Vec<&[u8]> = ran.bytes.split(|byte| *byte == b'\n').collect();
    let begins = |i: usize, name: &[u8], place: &str| lines[i].starts_with(&[name, place.as_bytes()].concat());
    assert!(begins(0, one.as_os_str().as_bytes(), ":2:1: 3: ") && begins(1, b"<stdin>", ":1:1: 3: "));
    assert!(begins(2, two.as_os_str().as_bytes(), ":1:4: 8: "));
    assert_eq!((lines.len(), ran.code, ran.err.as_str()), (4, 1, ""));
    let objects = lorukinde().arg("json").arg(&two).run("").out;
    assert!(json::parse(objects.trim_end())["file"].text().ends_with("two \u{fffd}.txt"));
}
#[test]
fn input_that_cannot_be_read() {
    let good = file(b"good.txt", b"Mo\n");
    let missing = std::ffi::OsString::from_vec(b"/nowhere/\xff.txt".to_vec());
    let ran = lorukinde().arg("say").arg(&missing).arg("/").arg(&good).run("");
    assert_eq!((ran.code, ran.out.as_str()), (2, "Mo\n  open: Monday\n"));
    let complaints: Vec<&str> = ran.err.lines().collect();
    assert!(complaints[0].starts_with("lorukinde: /nowhere/\u{fffd}.txt: ") && complaints[1].starts_with("lorukinde: /: "));
    assert_eq!(complaints.len(), 2);
    // It is worse than a refused part, whatever comes after it.
    assert_eq!(lorukinde().arg("say").arg("/").arg("-").run("x").code, 2);
}

#[test]
fn output_that_cannot_be_written() {
    for arguments in [&["say"][..], &["--help"], &["--version"]] {
        let ran = run::into_full(arguments, "Mo\n");
        assert_eq!(ran.code, 2, "{arguments:?}");
        assert!(ran.err.starts_with("lorukinde: the output cannot be written: ") && ran.err.lines().count() == 1, "{}", ran.err);
    }
    // A reader that goes away, as head does, needs no word.
    let ran = run::into_closed_pipe(&["say"], &"Mo\n".repeat(100_000));
    assert_eq!((ran.code, ran.err.as_str()), (2, ""));
}

#[test]
fn wrong_calls() {
    for arguments in [
        &[][..],
        &["tell"],
        &["say", "--loud"],
        &["say", "-x"],
        &["say", "--edition"],
        &["say", "--edition", "3"],
        &["say", "--edition=0"],
        &["say", "--house", "--edition", "2"],
        &["say", "--language", "xx"],
        &["say", "--language"],
        &["say", "-e"],
    ] {
        let ran = run(arguments, "Mo\n");
        assert_eq!((ran.code, ran.out.as_str(), ran.err.lines().count()), (2, "", 1), "{arguments:?}: {}", ran.err);
        assert!(
            ran.err.starts_with("lorukinde: ") && ran.err.ends_with("; lorukinde --help says how to call it\n"),
            "{}",
            ran.err
        );
    }
}

#[test]
fn manners() {
    let number = |arguments: &[&str], sheet: &str| run(arguments, sheet).out.split(": ").nth(1).map(str::to_string);
    let one_of = |number: u32| Some(number.to_string());
    assert_eq!(number(&["check"], "Mo 10:00"), one_of(8));
    assert_eq!(number(&["check", "--edition", "1"], "Mo 10:00"), one_of(8));
    assert_eq!(number(&["check", "--edition=2"], "Mo 10:00"), None);
    assert_eq!(number(&["--edition", "2", "check"], "Mo-Fr[1] +1 day"), None);
    assert_eq!(number(&["check", "--house"], "Mo 10:00+"), one_of(22));
    assert_eq!(number(&["check", "--house"], "Mo 10:00-09:00"), one_of(23));
    assert_eq!(number(&["check", "--house", "--edition", "1"], "Mo 10:00-12:00,12:00-24:00"), None);
    // A part that breaks the house's rules loses no other.
    assert_eq!(run(&["say", "--house"], "10:00+; Tu").out.lines().last(), Some("  open: Tuesday"));
}

/// Accepted, but is it meant? `check` and `json` say so under --strict alone, and then the exit code is 1.
#[test]
fn remarks() {
    let sheet = "Mo-Fr 9:00-12:00; 14:00-18:00";
    let sentence = "`14:00-18:00` holds on every day: after `;` a rule begins, and this one has no days; write `,`, not `;`";
    let checked = format!("-e:1:19: 0: remark: {sentence}\n");
    assert_eq!(run(&["check", "-e", sheet], ""), Ran::new(0, "", ""));
    assert_eq!(run(&["check", "--strict", sheet], ""), Ran::new(1, &checked, ""));
    assert_eq!(run(&["check", "--strict", "Mo-Fr 9:00-12:00"], ""), Ran::new(0, "", ""));
    assert!(run(&["say", "--language", "en", sheet], "").out.ends_with(&format!("  remark at character 19: {sentence}\n")));
    assert!(!run(&["json", sheet], "").out.contains("remarks"));
    let object = json::parse(run(&["json", "--strict", sheet], "").out.trim_end());
    let remark = &object["parts"][1]["remarks"][0];
    assert_eq!((remark["place"].clone(), remark["column"].clone()), (Json::Number(18), Json::Number(19)));
    assert_eq!((remark["sentence"].text(), remark["hint"]["write"][0].text()), (sentence, ","));
    assert!(!object["parts"][0].keys().contains(&"remarks"));
}

/// A sheet among the arguments; comments and blank lines in a file; another language.
#[test]
fn sheets_and_comments() {
    assert_eq!(run(&["say", "-e", "Mo"], "Tu"), Ran::new(0, "Mo\n  open: Monday\n", ""));
    assert_eq!(run(&["say", "Mo off", "24/7"], ""), Ran::new(0, "Mo off\n  closed: Monday\n24/7\n  open: always\n", ""));
    assert_eq!(run(&["say", "nowhere.txt"], "").code, 2);
    let input = "# baths\n\n  \nMo off\n#Tu\n";
    assert_eq!(run(&["check", "--comments"], input), Ran::new(0, "", ""));
    assert_eq!(run(&["check"], input).out.lines().count(), 4);
    assert_eq!(run(&["say", "--language=de", "Mo off"], "").out, "Mo off\n  geschlossen: Montag\n");
    assert_eq!(run(&["say", "--language=en", "Mo"], "").out, "Mo\n  open: Monday, all day\n");
}

/// The rows of a CSV, each of as many cells (RFC 4180).
fn rows(csv: &str) -> Vec<Vec<String>> {
    let (mut rows, mut row, mut cell, mut quoted) = (Vec::new(), Vec::new(), String::new(), false);
    let mut letters = csv.chars().peekable();
    while let Some(letter) = letters.next() {
        match (letter, quoted) {
            ('"', true) if letters.peek() == Some(&'"') => cell.extend(letters.next()),
            ('"', _) => quoted = !quoted,
            (',', false) => row.push(std::mem::take(&mut cell)),
            ('\r', false) => assert_eq!(letters.next(), Some('\n')),
            (letter, _) => cell.push(letter),
        }
        if letter == '\r' && !quoted {
            row.push(std::mem::take(&mut cell));
            rows.push(std::mem::take(&mut row));
        }
    }
    assert!(cell.is_empty() && row.is_empty());
    rows
}

#[test]
fn days() {
    let asked = ["days", "--from", "2024-02-28", "--to", "2024-03-01"];
    let ran = run(&asked, "Feb 29 off \"a, b\"; Mo x; PH, Th\n\nsu");
    let rows = rows(&ran.out);
    assert_eq!((ran.code, ran.err.as_str()), (1, ""));
    assert!(rows.iter().all(|row| row.len() == 8));
    assert_eq!(rows[0].join(" "), "file line part rule state note date answer");
    assert_eq!(rows[1].join("|"), "-|1|1|1|closed|a, b|2024-02-28|no");
    assert_eq!(rows[2].join("|"), "-|1|1|1|closed|a, b|2024-02-29|yes");
    assert_eq!(rows[3].join("|"), "-|1|1|1|closed|a, b|2024-03-01|no");
    // A refused part has one row.
    assert_eq!(rows[4][..5].join("|"), "-|1|2||refused");
    assert!(rows[4][5].starts_with("refusal 3 at character 23: "), "{}", rows[4][5]);
    assert_eq!(rows[5].join("|"), "-|1|3|1|open||2024-02-28|undecided");
    assert_eq!(rows[9].join("|"), "-|1|3|2|open||2024-02-29|yes");
    assert_eq!(rows[11][..5].join("|"), "-|2|1||refused");
    assert_eq!(rows.len(), 15);
    let only = run(&[&asked[..], &["--only", "yes,undecided"]].concat(), "Th,PH; We");
    assert_eq!(
        only.out.lines().skip(1).map(|line| line.rsplit(',').next().unwrap()).collect::<Vec<_>>(),
        ["undecided", "yes", "undecided", "yes"]
    );
    let json = run(&[&asked[..], &["--json", "--only", "yes"]].concat(), "Th \"x\"; y");
    let lines: Vec<_> = json.out.lines().collect();
    assert_eq!(
        lines[0],
        r#"{"file":"-","line":1,"part":1,"rule":1,"state":"open","note":"x","days":[{"date":"2024-02-29","answer":"yes"}]}"#
    );
    assert!(lines[1].starts_with(r#"{"file":"-","line":1,"part":2,"refused":"refusal 3 at character 9: "#), "{}", lines[1]);
    assert_eq!(lines.len(), 2);
}

#[test]
fn days_that_are_asked_for_wrongly() {
    let calls: [&[&str]; 7] = [
        &["days"],
        &["days", "--from", "2024-01-01"],
        &["days", "--from", "2024-01-02", "--to", "2024-01-01"],
        &["days", "--from", "2023-02-29", "--to", "2024-01-01"],
        &["days", "--from", "1899-12-31", "--to", "1900-01-01"],
        &["days", "--from", "2024-01-01", "--to", "2024-01-01", "--only", "maybe"],
        &["say", "--from", "2024-01-01"],
    ];
    for call in calls {
        let ran = run(call, "Mo");
        assert_eq!((ran.code, ran.out.as_str()), (2, ""), "{call:?} {}", ran.err);
    }
}

#[test]
fn months() {
    let ran = run(&["months"], "Jan;Feb,Mar 5;x;2020 Jan 5");
    assert_eq!(ran.code, 1);
    let lines: Vec<_> = ran.out.lines().collect();
    assert_eq!(lines[1], "  Jan: open: January, all day");
    assert!(lines[2].starts_with("  Feb Mar: open: "));
    assert!(lines[3].starts_with("  not read, refusal 3 at character 15: "));
    assert!(lines[4].starts_with("  all months: open: "));
}

#[test]
fn version() {
    assert_eq!(run(&["--version"], ""), Ran::new(0, concat!("lorukinde ", env!("CARGO_PKG_VERSION"), "\n"), ""));
}

/// Sheets are read as a whole and counted; with --json one object; with --each each file's figures and their sum.
#[test]
fn tally() {
    let sheets = "Mo[1,-1] 10:00-12:00; sa off\nMo; x\n\n";
    let counts =
        "\"read\":3,\"accepted\":1,\"refused\":2,\"refused_with\":{\"3\":1,\"11\":1},\"warnings\":1,\"items\":{\"years\":0,\
        \"months\":0,\"dates\":0,\"weeks\":0,\"weekdays\":2,\"holidays\":0,\"times\":1},\"marks\":12";
    assert_eq!(run(&["tally", "--json"], sheets), Ran::new(1, &format!("{{{counts}}}\n"), ""));
    let each = run(&["tally", "--json", "--each"], sheets);
    assert_eq!(each.out, format!("{{\"files\":[{{\"file\":\"-\",{counts}}}],\"sum\":{{{counts}}}}}\n"));
    let plain = run(&["tally", "--each"], sheets).out;
    let (first, all) = plain.split_once("\nall files\n").unwrap();
    assert_eq!(first, format!("-\n{all}"));
    assert_eq!(run(&["say", "--each"], "").code, 2);
}

/// Every example of the help says what the program does: a line `$ echo 'SHEET' | lorukinde WORDS`, then what it writes.
#[test]
fn the_helps_examples() {
    let help = run(&["--help"], "");
    assert_eq!((help.code, help.err.as_str()), (0, ""));
    let examples: Vec<&str> = help.out.split("    $ echo '").skip(1).collect();
    assert_eq!(examples.len(), 5);
    for example in examples {
        let (call, written) = example.split_once('\n').unwrap();
        let (sheet, words) = call.split_once("' | lorukinde ").unwrap();
        let written: String = written.lines().filter(|line| !line.is_empty()).map(|line| format!("{}\n", &line[4..])).collect();
        assert_eq!(run(&words.split(' ').collect::<Vec<_>>(), format!("{sheet}\n")).out, written, "{call}");
    }
}

/// So do those of the commands that came later: a line `$ printf 'SHEET\n' | lorukinde WORDS`, then what it writes (the lines of the CSV
/// end with 13 and 10). They stand before the others.
#[test]
fn the_helps_later_examples() {
    let help = run(&["--help"], "").out;
    let (later, _) = help.split_once("    $ echo '").unwrap();
    let examples: Vec<&str> = later.split("    $ printf '").skip(1).collect();
    assert_eq!(examples.len(), 4);
    for example in examples {
        let (call, written) = example.split_once('\n').unwrap();
        let (sheet, words) = call.split_once("\\n' | lorukinde ").unwrap();
        let written: String = written.lines().filter(|line| !line.is_empty()).map(|line| format!("{}\n", &line[4..])).collect();
        let ran = run(&words.split(' ').collect::<Vec<_>>(), format!("{sheet}\n"));
        assert_eq!(ran.out.replace("\r\n", "\n"), written, "{call}");
    }
}

/// The operator's example in README.md: what is written follows its call, indented as the call is.
#[test]
fn the_readmes_example() {
    let readme = String::from_utf8(common::lines_of("README.md").unwrap().join(&b'\n')).unwrap();
    let (_, example) = readme.split_once("    printf '").unwrap();
    let (sheet, rest) = example.split_once("\\n' | bash tools/lorukinde.sh say\n\nwrites\n\n").unwrap();
    let written: String = rest.lines().map_while(|line| Some(format!("{}\n", line.strip_prefix("    ")?))).collect();
    assert_eq!(run(&["say"], sheet), Ran::new(1, &written, ""));
}

/// What the object of each sheet of a list says of its parts is what the crate reads.
#[test]
fn json_of_a_list() {
    let sheets = common::lines_of("tools/oracle/sample.txt").unwrap();
    let ran = run(&["json"], sheets.join(&b'\n'));
    let objects: Vec<Json> = ran.out.lines().map(json::parse).collect();
    assert_eq!((objects.len(), ran.err.as_str()), (sheets.len(), ""));
    for (i, (sheet, object)) in sheets.iter().zip(&objects).enumerate() {
        let number = |n: usize| Json::Number(n as i64);
        assert_eq!((&object["line"], &object["bytes"]), (&number(i + 1), &number(sheet.len())));
        let parts: Vec<_> = lorukinde::parts(sheet).collect();
        assert_eq!(object["parts"].list().len(), parts.len());
        for (part, said) in parts.iter().zip(object["parts"].list()) {
            assert_eq!(said["range"], Json::List(vec![number(part.range.start), number(part.range.end)]));
            let refusal = part.reading.as_ref().err();
            assert_eq!(said["number"], number(refusal.map_or(0, |refusal| refusal.number as usize)));
            assert_eq!(said["place"], number(refusal.map_or(0, |refusal| refusal.place)));
            if let Ok(reading) = &part.reading {
                let places: Vec<Json> = reading.placed().map(|placed| number(placed.place)).collect();
                assert_eq!(places_of(&said["rules"]), places);
                assert_eq!(said["unusual"].list().len(), reading.warnings() as usize);
            }
        }
    }
}

/// The places of rules and items, in reading order.
fn places_of(rules: &Json) -> Vec<Json> {
    let items = |rule: &Json| rule["items"].list().iter().map(|item| item["place"].clone()).collect::<Vec<_>>();
    rules.list().iter().flat_map(|rule| [vec![rule["place"].clone()], items(rule)].concat()).collect()
}

/// Any bytes give valid JSON.
#[test]
fn json_of_any_bytes() {
    let all: Vec<u8> = (0..=255).filter(|byte| *byte != b'\n').collect();
    let quoted = [b"Mo \"", &all[32..], b"\""].concat();
    for sheet in [&all[..], &quoted, b"\\\"", b"\"\\\"", b"\xed\xa0\x80", "\u{2028}\u{1d11e}".as_bytes()] {
        let object = json::parse(run(&["json"], sheet).out.trim_end());
        assert_eq!(object["sheet"].text(), lorukinde::shown(sheet));
    }
}

/// The items of docs/JSON.md, whole.
#[test]
fn json_items() {
    let items = |arguments: &[&str], sheet: &str| {
        let object = json::parse(run(arguments, sheet).out.trim_end());
        object["parts"][0]["rules"][0]["items"].list().to_vec()
    };
    let document = String::from_utf8(common::lines_of("docs/JSON.md").unwrap().join(&b'\n')).unwrap();
    let mut shown = 0;
    for line in document.lines().filter(|line| line.starts_with("| `") && line.contains("| `{\"kind\"")) {
        let fields: Vec<&str> =
            line.split("` | `").map(|field| field.trim_start_matches("| `").trim_end_matches("` |")).collect();
        assert_eq!(items(&["json", "--edition", "2"], fields[0]), [json::parse(fields[1])], "{}", fields[0]);
        shown += 1;
    }
    assert!(shown >= 12, "{shown}");
}

#[test]
fn json_of_a_refused_part() {
    let object = json::parse(run(&["json", "--house"], "Mo 10:00+;\u{e4}").out.trim_end());
    let (first, second) = (&object["parts"][0], &object["parts"][1]);
    assert_eq!(object.keys(), ["bytes", "file", "line", "manner", "parts", "sheet"]);
    assert_eq!(first.keys(), ["column", "hint", "number", "place", "range", "sentence"]);
    assert_eq!((&first["number"], &first["hint"]), (&Json::Number(22), &Json::Null));
    assert_eq!((&second["place"], &second["column"]), (&Json::Number(10), &Json::Number(11)));
    let object = json::parse(run(&["json"], "Di").out.trim_end());
    let hint = &object["parts"][0]["hint"];
    assert_eq!(hint["write"].list().iter().map(Json::text).collect::<Vec<_>>(), ["Tu", "Su"]);
    assert_eq!(hint["range"], Json::List(vec![Json::Number(0), Json::Number(2)]));
}
