//! Words as operators write them, and how the sheet rules write what they mean.
use std::collections::HashMap;

use crate::names::MONTHS;

/// The languages of the columns of [`WORDS`]. English is known to all.
pub(crate) const LANGUAGES: usize = 6;
const ENGLISH: usize = 0;

/// What a word means, and the words for it, in small letters and parted by commas: English, German, French, Dutch, Italian, Spanish.
/// A word in two rows can mean either.
const WORDS: &[(&str, [&str; LANGUAGES])] = &[
    (
        "Mo",
        [
            "monday,mondays,mon",
            "montag,montags,mo",
            "lundi,lundis,lun,lu",
            "maandag,maandags,ma",
            "lunedì,lunedi,lun,lu",
            "lunes,lun,lu",
        ],
    ),
    (
        "Tu",
        [
            "tuesday,tuesdays,tue,tues",
            "dienstag,dienstags,di",
            "mardi,mardis,ma",
            "dinsdag,dinsdags,di",
            "martedì,martedi",
            "martes",
        ],
    ),
    (
        "We",
        [
            "wednesday,wednesdays,wed,weds",
            "mittwoch,mittwochs,mi",
            "mercredi,mercredis,mer,me",
            "woensdag,woensdags,wo",
            "mercoledì,mercoledi,mer",
            "miércoles,miercoles,mi",
        ],
    ),
    (
        "Th",
        [
            "thursday,thursdays,thu,thur,thurs",
            "donnerstag,donnerstags,do",
            "jeudi,jeudis,jeu,je",
            "donderdag,donderdags,do",
            "giovedì,giovedi,gio,gi",
            "jueves,jue",
        ],
    ),
    (
        "Fr",
        [
            "friday,fridays,fri",
            "freitag,freitags,fr",
            "vendredi,vendredis,ven,ve",
            "vrijdag,vrijdags,vr",
            "venerdì,venerdi,ven",
            "viernes,vie,vi",
        ],
    ),
    (
        "Sa",
        [
            "saturday,saturdays,sat",
            "samstag,samstags,sonnabend,sonnabends,sa",
            "samedi,samedis,sam,sa",
            "zaterdag,zaterdags,za",
            "sabato,sab",
            "sábado,sabado,sab",
        ],
    ),
    (
        "Su",
        [
            "sunday,sundays,sun",
            "sonntag,sonntags,so",
            "dimanche,dimanches,dim,di",
            "zondag,zondags,zo",
            "domenica,dom",
            "domingo,dom,do",
        ],
    ),
    ("Jan", ["january", "januar,jänner,jaenner", "janvier,janv", "januari", "gennaio,gen", "enero,ene"]),
    ("Feb", ["february", "februar,feber", "février,fevrier,févr,fév,fev", "februari", "febbraio", "febrero"]),
    ("Mar", ["march", "märz,maerz,mär,mrz", "mars", "maart,mrt", "marzo", "marzo"]),
    ("Apr", ["april", "april", "avril,avr", "april", "aprile", "abril,abr"]),
    ("May", ["may", "mai", "mai", "mei", "maggio,mag", "mayo"]),
    ("Jun", ["june", "juni", "juin", "juni", "giugno,giu", "junio"]),
    ("Jul", ["july", "juli", "juillet,juil", "juli", "luglio,lug", "julio"]),
    ("Aug", ["august", "august", "août,aout", "augustus", "agosto,ago", "agosto,ago"]),
    ("Sep", ["september,sept", "september,sept", "septembre,sept", "september,sept", "settembre,set", "septiembre"]),
    ("Oct", ["october", "oktober,okt", "octobre", "oktober,okt", "ottobre,ott", "octubre"]),
    ("Nov", ["november", "november", "novembre", "november", "novembre", "noviembre"]),
    ("Dec", ["december", "dezember,dez", "décembre,decembre,déc", "december", "dicembre,dic", "diciembre,dic"]),
    (
        "PH",
        [
            "ph,public holidays,public holiday,bank holidays,bank holiday,holidays,holiday,b/h",
            "feiertag,feiertage,feiertags,feiertagen,gesetzliche feiertage,gesetzlichen feiertagen",
            "jours fériés,jour férié,jours feries,jour ferie,fériés,férié,fêtes",
            "feestdagen,feestdag,officiële feestdagen",
            "festivi,giorni festivi",
            "festivos,días festivos",
        ],
    ),
    (
        "SH",
        [
            "sh,school holidays,school holiday,holidays,holiday",
            "schulferien,ferien",
            "vacances scolaires,vacances",
            "schoolvakanties,schoolvakantie,vakanties",
            "vacanze scolastiche",
            "vacaciones escolares",
        ],
    ),
    ("week", ["week,weeks,wk", "kw,woche,wochen,kalenderwoche", "semaine,semaines", "weken", "settimana", "semana"]),
    (
        "easter",
        ["easter sunday", "ostern,ostersonntag", "pâques,paques,dimanche de pâques", "pasen,eerste paasdag", "pasqua", "pascua"],
    ),
    (
        "easter +1 day",
        ["easter monday", "ostermontag", "lundi de pâques,lundi de paques", "tweede paasdag,paasmaandag", "pasquetta", ""],
    ),
    ("easter -2 days", ["good friday", "karfreitag", "vendredi saint", "goede vrijdag", "", "viernes santo"]),
    (
        "easter +39 days",
        [
            "ascension day,ascension",
            "himmelfahrt,christi himmelfahrt",
            "ascension,l'ascension",
            "hemelvaartsdag,hemelvaart",
            "",
            "",
        ],
    ),
    ("easter +49 days", ["whit sunday", "pfingstsonntag", "pentecôte,dimanche de pentecôte", "eerste pinksterdag", "", ""]),
    ("easter +50 days", ["whit monday", "pfingstmontag", "lundi de pentecôte", "tweede pinksterdag", "", ""]),
    ("Dec 24", ["christmas eve", "heiligabend,heilig abend", "veille de noël,réveillon de noël", "kerstavond", "", "nochebuena"]),
    ("Dec 25", ["christmas day,xmas day", "", "noël,noel", "eerste kerstdag", "natale", "navidad"]),
    ("Dec 26", ["boxing day", "", "", "tweede kerstdag", "", ""]),
    ("Dec 31", ["new year's eve,new years eve", "silvester", "saint-sylvestre", "oudejaarsdag,oudjaar", "", "nochevieja"]),
    (
        "Jan 1",
        [
            "new year's day,new years day",
            "neujahr,neujahrstag",
            "jour de l'an,nouvel an",
            "nieuwjaarsdag,nieuwjaar",
            "capodanno",
            "año nuevo",
        ],
    ),
    (
        "closed",
        [
            "shut,closed all day,no swimming",
            "geschlossen,zu,ruhetag,schließtag,schliesstag,geschl",
            "fermé,ferme,fermée,fermee,fermés,fermées,fermeture",
            "gesloten,dicht",
            "chiuso",
            "cerrado",
        ],
    ),
    ("open", ["opened", "geöffnet,geoeffnet,offen", "ouvert,ouverte,ouverts,ouverture", "geopend", "aperto", "abierto"]),
    ("unknown", ["", "unbekannt", "inconnu", "onbekend", "", ""]),
    ("dawn", ["", "morgendämmerung", "aube", "dageraad", "", ""]),
    ("sunrise", ["", "sonnenaufgang", "lever du soleil", "zonsopgang", "", ""]),
    ("sunset", ["", "sonnenuntergang", "coucher du soleil", "zonsondergang", "", ""]),
    ("dusk", ["", "abenddämmerung", "crépuscule", "schemering", "", ""]),
    (
        "Mo-Su",
        [
            "daily,every day,everyday,7 days a week,all week,7 days",
            "täglich,taeglich,jeden tag,tägl",
            "tous les jours,quotidien,7j/7,7 jours sur 7",
            "dagelijks,elke dag,alle dagen,iedere dag",
            "tutti i giorni",
            "todos los días,diario",
        ],
    ),
    (
        "Mo-Fr",
        [
            "weekdays,weekday,working days",
            "werktags,werktage,wochentags",
            "en semaine,jours ouvrés",
            "werkdagen,doordeweeks,weekdagen",
            "",
            "",
        ],
    ),
    ("Mo-Sa", ["", "werktags,werktage", "jours ouvrables", "", "", ""]),
    (
        "Sa-Su",
        [
            "weekend,weekends,week-end,week-ends",
            "wochenende,wochenenden",
            "week-end,week-ends,weekend,weekends",
            "weekend,weekends,weekeinde",
            "",
            "",
        ],
    ),
    (
        ALWAYS,
        [
            "always,around the clock,24x7,24 hours a day 7 days a week",
            "immer,rund um die uhr",
            "toujours,24h/24 7j/7,24h/24 et 7j/7,7j/7 24h/24,24/24 7/7",
            "altijd",
            "sempre",
            "siempre",
        ],
    ),
    (NOON, ["noon,midday,12 noon", "", "midi", "", "", ""]),
    (MIDNIGHT, ["midnight,12 midnight", "mitternacht", "minuit", "middernacht", "", ""]),
    (
        TO,
        [
            "to,till,until,through,thru",
            "bis,bis zum",
            "à,a,au,jusqu'à,jusqu'au,jusque",
            "tot,t/m,tot en met,tm,t.e.m",
            "a,al,alle",
            "a,al,hasta",
        ],
    ),
    (AND, ["and,plus", "und,sowie,u,u.", "et", "en", "e", "y"]),
    (FROM, ["from", "ab", "dès,des,à partir de,à partir du", "vanaf", "dalle", "desde"]),
    (BETWEEN, ["", "von,vom", "de,du", "van", "dal,da", "de,del"]),
    (
        EXCEPT,
        [
            "except,except on,except for,excluding,excl,excl.,apart from,not,not on",
            "außer,ausser,außer an,ausser an,ohne,nicht,nicht an",
            "sauf,sauf le,sauf les,hors,excepté",
            "behalve,behalve op,uitgezonderd,niet op,m.u.v.",
            "escluso",
            "excepto",
        ],
    ),
    (
        NOTHING,
        [
            "on,the,every,each,hours,hrs,o'clock,opening hours,opening times,open hours,hours are",
            "uhr,am,an,der,den,jeden,jeweils,im,in,öffnungszeiten,oeffnungszeiten",
            "le,les,la,l',heures,heure,chaque,horaires,en,horaires d'ouverture",
            "op,de,het,in,uur,u,elke,iedere,openingstijden,openingsuren",
            "ore,il,la",
            "el,los,horas,horario",
        ],
    ),
];

pub(crate) const ALWAYS: &str = "24/7";
pub(crate) const NOON: &str = "12:00";
pub(crate) const MIDNIGHT: &str = "24:00";
/// From one to another.
pub(crate) const TO: &str = "-";
/// Besides.
pub(crate) const AND: &str = ",";
/// From something on, or to something that follows.
pub(crate) const FROM: &str = "from";
/// From something, to something that has to follow.
pub(crate) const BETWEEN: &str = "between";
pub(crate) const EXCEPT: &str = "except";
/// What says nothing of days or times.
pub(crate) const NOTHING: &str = "";

/// The words for days of an offset, `+1 Tag`.
pub(crate) const DAY_UNITS: [&str; 9] = ["day", "days", "tag", "tage", "tagen", "jour", "jours", "dag", "dagen"];
/// What may stand after the number of a time, and how many hours it adds to one of the morning.
pub(crate) const TIME_UNITS: [(&str, Option<u32>); 17] = [
    ("a.m.", Some(0)),
    ("a.m", Some(0)),
    ("am", Some(0)),
    ("p.m.", Some(12)),
    ("p.m", Some(12)),
    ("pm", Some(12)),
    ("uhr", None),
    ("uur", None),
    ("hours", None),
    ("hrs", None),
    ("hr", None),
    ("heures", None),
    ("heure", None),
    ("o'clock", None),
    ("std", None),
    ("h", None),
    ("u", None),
];

/// A meaning of a word: how the rules write it, and whether the language itself has the word.
#[derive(Clone, Copy, Debug, PartialEq)]
pub(crate) struct Meaning {
    pub key: &'static str,
    pub is_own: bool,
}

/// A word of the table: its letters, what it means, and its language.
struct Entry {
    letters: Vec<char>,
    key: &'static str,
    language: usize,
}

thread_local! {
    /// The words by their first letters.
    static ENTRIES: HashMap<char, Vec<Entry>> = entries();
}

fn entries() -> HashMap<char, Vec<Entry>> {
    let mut all: HashMap<char, Vec<Entry>> = HashMap::new();
    for (key, cells) in WORDS {
        for (language, cell) in cells.iter().enumerate() {
            for word in cell.split(',').filter(|word| !word.is_empty()) {
                let letters: Vec<char> = word.chars().collect();
                all.entry(letters[0]).or_default().push(Entry { letters, key, language });
            }
        }
    }
    all
}

/// The longest words with which a text in small letters begins, in a language or in English: how long they are, and each meaning.
pub(crate) fn longest(text: &[char], language: usize) -> Option<(usize, Vec<Meaning>)> {
    let first = text.first()?;
    ENTRIES.with(|entries| {
        let known = |entry: &&Entry| [language, ENGLISH].contains(&entry.language) && stands(text, &entry.letters);
        let found: Vec<&Entry> = entries.get(first)?.iter().filter(known).collect();
        let length = found.iter().map(|entry| entry.letters.len()).max()?;
        let longest = || found.iter().filter(|entry| entry.letters.len() == length);
        // What the language itself means by a word goes before what English does.
        let has_own = longest().any(|entry| entry.language == language);
        let mut meanings: Vec<Meaning> = Vec::new();
        for entry in longest().filter(|entry| !has_own || entry.language == language) {
            if meanings.iter().all(|known| known.key != entry.key) {
                meanings.push(Meaning { key: entry.key, is_own: has_own });
            }
        }
        Some((length, meanings))
    })
}

/// Whether a word stands whole at the beginning of a text.
fn stands(text: &[char], word: &[char]) -> bool {
    let ends = text.get(word.len()).map_or(true, |next| !next.is_alphabetic() || word.last() == Some(&'\''));
    text.starts_with(word) && ends
}

/// How long a word is that stands whole at the beginning of a text.
pub(crate) fn begins_with(text: &[char], word: &str) -> Option<usize> {
    let word: Vec<char> = word.chars().collect();
    (!word.is_empty() && stands(text, &word)).then_some(word.len())
}

/// Whether a word that is not known is nearly one that has a meaning for days or hours, or has such a one in it.
pub(crate) fn is_nearly_known(word: &str) -> bool {
    const NAMES: [&str; 8] = ["open", "closed", "off", "unknown", "dawn", "sunrise", "sunset", "dusk"];
    const SIGNS: [&str; 5] = [TO, AND, FROM, BETWEEN, NOTHING];
    const SHORT: usize = 5;
    let rows = WORDS.iter().filter(|(key, _)| !SIGNS.contains(key));
    let known =
        rows.flat_map(|(_, cells)| cells.iter().flat_map(|cell| cell.split(','))).filter(|known| known.len() > 3).chain(NAMES);
    let letters: Vec<char> = word.chars().collect();
    let is_month = |name: &&str| {
        letters.len() == name.len() + 1 && distance(&letters, &name.to_lowercase().chars().collect::<Vec<char>>()) == 1
    };
    if MONTHS.iter().any(is_month) {
        return true; // `Decc`
    }
    known.map(|name| (name, name.chars().collect::<Vec<char>>())).any(|(name, known)| {
        let is_part = known.len() >= SHORT && word.contains(name); // `Freitagabend`
        let most = if known.len() <= SHORT { 1 } else { 2 };
        is_part || distance(&letters, &known) <= most
    })
}

/// How many letters have to be changed, added or left out.
fn distance(one: &[char], other: &[char]) -> usize {
    let mut row: Vec<usize> = (0..=other.len()).collect();
    for (i, letter) in one.iter().enumerate() {
        let mut corner = row[0];
        row[0] = i + 1;
        for (j, wanted) in other.iter().enumerate() {
            let changed = corner + usize::from(letter != wanted);
            corner = row[j + 1];
            row[j + 1] = changed.min(corner + 1).min(row[j] + 1);
        }
    }
    row[other.len()]
}
