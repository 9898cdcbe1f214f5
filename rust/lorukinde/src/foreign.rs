//! Names as operators write them: in full, in German, French, Italian, Spanish or Dutch, or with other capitals than a name needs;
//! and how the sheet rules write them.

/// What is written, in small letters and parted by blanks, after how the rules write it. A name in two rows can mean either.
const ROWS: [(&str, &str); 34] = [
    ("Mo", "monday mon montag lundi lun lu lunedì lunedi lunes maandag ma"),
    ("Tu", "tuesday tue tues dienstag di mardi ma martedì martedi martes dinsdag"),
    ("We", "wednesday wed weds mittwoch mi mercredi mer me mercoledì mercoledi miércoles miercoles woensdag wo"),
    ("Th", "thursday thu thur thurs donnerstag do jeudi jeu je giovedì giovedi gio gi jueves jue donderdag"),
    ("Fr", "friday fri freitag vendredi ven ve venerdì venerdi viernes vie vi vrijdag vr"),
    ("Sa", "saturday sat samstag sonnabend samedi sam sabato sab sábado sabado zaterdag za"),
    ("Su", "sunday sun sonntag so dimanche dim di domenica dom domingo do zondag zo"),
    ("Jan", "january januar jänner jaenner janvier gennaio gen enero ene januari"),
    ("Feb", "february februar feber février fevrier fév fev febbraio febrero februari"),
    ("Mar", "march märz maerz mär mrz mars marzo maart mrt"),
    ("Apr", "april avril avr aprile abril abr"),
    ("May", "mai maggio mag mayo mei"),
    ("Jun", "june juni juin giugno giu junio"),
    ("Jul", "july juli juillet juil luglio lug julio"),
    ("Aug", "august août aout agosto ago augustus"),
    ("Sep", "september sept septembre settembre set septiembre"),
    ("Oct", "october oktober okt octobre ottobre ott octubre"),
    ("Nov", "november novembre noviembre"),
    ("Dec", "december dezember dez décembre decembre déc dicembre dic diciembre"),
    ("PH", "ph feiertag feiertage feiertags feiertagen holiday holidays"),
    ("SH", "sh schulferien ferien holiday holidays"),
    ("week", "week weeks kw woche wochen semaine semaines settimana semana"),
    ("days", "days day tag tage tagen"),
    ("easter", "ostern ostersonntag pâques paques pasqua pascua pasen"),
    ("closed", "geschlossen zu fermé ferme fermée chiuso cerrado gesloten"),
    ("open", "geöffnet geoeffnet offen ouvert ouverte aperto abierto"),
    ("unknown", "unbekannt inconnu"),
    ("dawn", "morgendämmerung aube"),
    ("sunrise", "sonnenaufgang"),
    ("sunset", "sonnenuntergang"),
    ("dusk", "abenddämmerung"),
    ("Mo-Su", "daily täglich taeglich everyday"),
    ("Sa-Su", "weekend weekends wochenende wochenenden"),
    ("24/7", "always immer"),
];

/// How the rules write a word, which is given in small letters: each way that it can be meant.
pub(crate) fn written(word: &str) -> impl Iterator<Item = &'static str> + '_ {
    ROWS.iter().filter(move |(_, words)| words.split(' ').any(|known| known == word)).map(|(name, _)| *name)
}
