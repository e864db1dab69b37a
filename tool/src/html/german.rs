//! The page in German.

use super::words::{counted, Words};
use crate::cli::Lang;

pub static WORDS: Words = Words {
    lang: Lang::De,
    code: "de",
    group: '.',
    decimal: ',',
    months: [
        "Januar",
        "Februar",
        "März",
        "April",
        "Mai",
        "Juni",
        "Juli",
        "August",
        "September",
        "Oktober",
        "November",
        "Dezember",
    ],
    day_end: ".",

    skip: "Zum Inhalt springen",
    contents: "Auf dieser Seite",
    payment_file: "Zahlungsdatei",
    made_by: "Erstellt mit kaaravizhe {}. Diese Seite enthält kein Skript und lädt nichts nach.",
    what_sound_means: "In Ordnung heißt, dass keine Regel verletzt ist. Es heißt nicht, dass HBV-IMPAY alles in der \
        Datei annimmt.",

    sound: counted("In Ordnung: Die einzige Zahlung geht weiter", "In Ordnung: Alle {} Zahlungen gehen weiter"),
    some_back: counted("{} von {} Zahlungen kommt zurück", "{} von {} Zahlungen kommen zurück"),
    some_go_on: counted(", {} geht weiter", ", {} gehen weiter"),
    refused: "Abgelehnt: Nichts geht weiter",
    lead_sound: "Nach {} gelesen, verletzt die Datei keine Regel.",
    lead_some: "Nach {} gelesen: Zahlungen, die eine Regel verletzen, kommen zurück, jede mit ihrer Regel; die \
        anderen gehen weiter.",
    lead_refused: "Nach {} gelesen, wird die Datei als Ganzes abgelehnt:",
    changes: counted(
        "1 Zeichen wird geändert, weil HBV-IMPAY es nicht weitergibt.",
        "{} Zeichen werden geändert, weil HBV-IMPAY sie nicht weitergibt.",
    ),
    no_changes: "Kein Zeichen wird geändert.",
    keep: "Bewahren Sie die eingereichte Datei auf: Was zurückkommt, steht nur in ihr und braucht eine Datei mit \
        neuer Nummer.",
    sound_elsewhere: "Nach {} gelesen, ist die Datei in Ordnung. Klären Sie, nach welcher Codepage sie geschrieben \
        wurde.",
    letters_elsewhere: counted(
        "{} geändertes Zeichen wird zum Leerzeichen; nach {} würde es ein Buchstabe. Klären Sie, nach welcher Codepage die \
            Datei geschrieben wurde.",
        "{} geänderte Zeichen werden zu Leerzeichen; nach {} würden es Buchstaben. Klären Sie, nach welcher Codepage die \
            Datei geschrieben wurde.",
    ),

    summary: "Übersicht",
    file: "Datei",
    standard_input: "Standardeingabe",
    ordering_party: "Auftraggeber",
    file_number: "Dateinummer (Q4, Q6, Q7)",
    date: "Erstellungsdatum (Q6)",
    code_page: "Codepage",
    on_page: "Codepage {}",
    lists: "Länderlisten",
    annexes: "HBV-IMPAY, Anhang II (Überweisungen) und Anhang I (Schecks)",
    lists_of: "aus dem Ordner {}",
    length: "Länge",
    bytes: counted("1 Byte", "{} Bytes"),

    totals: "Zahlungen und Beträge",
    payments: "Zahlungen",
    whole_euros: "Volle Euro",
    cents: "Cent",
    amount: "Betrag in Euro",
    submitted: "Eingereicht",
    goes_on: "Geht weiter",
    comes_back: "Kommt zurück",
    about_totals: "Volle Euro sind die Summe aller T14a, wie in Z3. Cent sind die Summe der ersten beiden Ziffern \
        aller T14b, ohne Übertrag in die Euro. Der Betrag enthält beides.",

    what_changes: "Was geändert wird",
    changed_characters: "Geänderte Zeichen",
    character: "Zeichen",
    hex: "Hex",
    becomes: "Wird zu",
    times: "Anzahl",
    space: "Leerzeichen",
    control: "Steuerzeichen",
    no_character: "kein Zeichen dieser Codepage",
    hard_space: "geschütztes Leerzeichen",
    soft_hyphen: "weiches Trennzeichen",
    in_header: "Im Vorsatz: Satz 0 (Q)",
    about_changes: "<del>Vorher</del> ist ein geändertes Zeichen gepunktet unterstrichen, <ins>nachher</ins> das, \
        wozu es wird, durchgehend. <ins>␣</ins> ist ein Leerzeichen.",
    before: "vorher",
    after: "nachher",
    line: "Zeile {}",
    read_as: "gelesen als",

    what_comes_back: "Was zurückkommt",
    what_would_come_back: "Was zurückkäme",
    about_marks: "Der Fehler in einem Feld ist <mark>markiert</mark>; ␣ ist ein Leerzeichen, das zum Fehler gehört.",
    look_at_first: "Alle Zahlungen außer Satz 1 kommen zurück, weil ihr Konto ein anderes ist als das von Satz 1. \
        Sehen Sie sich deshalb zuerst Satz 1 an: Vielleicht ist er der falsche.",
    back: "Kommt zurück",
    what_goes_on: "Zahlungen, die weitergehen",
    on: "Geht weiter",
    one_record: "Satz {}",
    records: "von Satz {} bis Satz {}",
    payments_in: counted("{} Zahlung, {}", "{} Zahlungen, {}"),
    to: "{} bis {}",
    record: "Satz",
    payee: "Zahlungsempfänger",
    country: "Land",
    why_back: "Warum sie zurückkommt",
    changed: "Änderungen",
    unchanged: "keine",
    rule: "Regel {}",
    number: "Nummer {}",
    m8_code: "M8-Code",
    column: "Stelle {}",
    columns: "Stellen {} bis {}",
    hex_in_column: "hex {} an Stelle {}",

    why_refused: "Warum sie abgelehnt wird",
    judge_first: "Was die Prüfung zuerst findet",
    about_judge: "Die Prüfung geht die Datei Satz für Satz durch und hält bei der ersten verletzten Regel an. Beim \
        Vorbereiten ist die Reihenfolge eine andere: zuerst das, dessentwegen die Datei als Ganzes abgelehnt wird.",
    field: "Feld",
    place: "Stellen",
    marked: "Markiert",
    due: "Richtig in {}",
    record_of: "{} ({})",
    record_fields: "Satz {} ({}), Feld für Feld",
    about_record: "Jede Zeile hat höchstens 35 Bytes und steht in ihrem Rahmen so wie in der Datei.",
    meaning: "Bedeutung",
    content: "Inhalt",
    record_length: "Satzlänge",
    record_kind: "Satzart",
    breaks: "verletzt Regel {}",
    spaces: counted("1 Leerzeichen", "{} Leerzeichen"),

    too_long: "Eine Datei hat höchstens 9.999 Zahlungen, also 7.679.744 Bytes. Diese ist länger; weiter wurde sie \
        nicht gelesen.",
    no_record: "Satz {} muss bei Byte {} beginnen, gezählt ab 0. Von dort an hat die Datei {}: zu wenig für einen \
        Satz.",
    cut_record: "Satz {} beginnt bei Byte {}, gezählt ab 0. Seine Satzart ist {}, er muss also {} Bytes haben; die \
        Datei endet nach {} davon.",
    wrong_length: "Satz {} beginnt bei Byte {}, gezählt ab 0. Seine Satzart, das fünfte Byte, ist {}; seine ersten \
        vier Bytes müssen also {} sein.",
    wrong_letter: "Satz {} beginnt bei Byte {}, gezählt ab 0. Seine Satzart, das fünfte Byte, muss {} sein.",
    after_z: "Der Z-Satz ist der letzte. Er endet vor Byte {}, gezählt ab 0; danach hat die Datei noch {}.",
    t_or_z: "T oder Z",
    line_end: "Unter diesen Bytes ist ein Zeilenende (hex 0D oder 0A). Eine Zahlungsdatei ist eine Folge von Bytes \
        ohne Zeilenenden.",
    empty: "Die Datei ist leer.",
    stretch: "Bytes {} bis {} der Datei, je Zeile 16",
    first_byte: "Erstes Byte",
    text: "Text",
    end_of_file: "Hier endet die Datei.",
};
