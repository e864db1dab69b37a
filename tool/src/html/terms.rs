//! The desk's words in both languages: those of docs/WORDS.md, and of docs/M8-CODES.md what the codes mean.

use crate::cli::Lang;
use desk::Refusal;

/// When a rule is broken, or why else something is refused.
pub fn refusal(lang: Lang, refusal: Refusal) -> &'static str {
    match lang {
        Lang::En => refusal.words(),
        Lang::De => REFUSALS.iter().find(|row| row.0 == refusal.number).map_or("keine Regel", |row| row.1),
    }
}

/// What a field is called.
pub fn label(lang: Lang, field: &str) -> &'static str {
    let row = FIELDS.iter().find(|row| row.0 == field).expect("every field has a label");
    match lang {
        Lang::En => row.1,
        Lang::De => row.2,
    }
}

/// What the code of an M8 record means.
pub fn meaning(lang: Lang, code: &str) -> &'static str {
    let meaning = match lang {
        Lang::En => desk::m8_meaning(code.as_bytes()),
        Lang::De => MEANINGS.iter().find(|row| row.0 == code).map(|row| row.1),
    };
    meaning.expect("the codes that are lent have a meaning")
}

const REFUSALS: [(u64, &str); 42] = [
    (1, "Datei länger als 7.679.744 Bytes (9.999 Zahlungen)"),
    (2, "Datei endet mitten in einem Satz oder dort, wo noch einer folgen muss"),
    (3, "Längenangabe passt nicht zur Satzart"),
    (4, "Satzart hier nicht zulässig"),
    (5, "Bytes nach dem Z-Satz"),
    (7, "Prüfen, Vorbereiten, M8, Wiederherstellen: Codepage weder 0 noch 1"),
    (10, "Q3 ist nicht 50400042"),
    (11, "Q4 besteht nicht aus acht Nullen und zwei Ziffern"),
    (12, "erste Zeile von Q5 leer"),
    (13, "Q6 ist kein Datum JJMMTT (Jahre 2000 bis 2099)"),
    (14, "ein Zeichen in Q7, Q8, Q10 oder Q11 ist keine Ziffer"),
    (15, "Q9 ist nicht N"),
    (16, "Q12 besteht nicht nur aus Leerzeichen"),
    (20, "ein Zeichen in T3 oder T4b ist keine Ziffer, oder T4a ist nicht EUR"),
    (21, "T3 oder T4b weicht von Satz 1 ab"),
    (22, "T5, T6 oder T7b besteht nicht nur aus Nullen, oder T7a besteht nicht nur aus Leerzeichen"),
    (23, "T22 ist weder 00 (Überweisung) noch 20 oder 22 (Schecks)"),
    (24, "T21 ist nicht 00, 01 oder 02; bei einem Scheck nicht 00"),
    (25, "Scheck: T8 oder T9b ist nicht leer, oder T9a besteht nicht nur aus Leerzeichen"),
    (26, "Überweisung: T9a ist falsch: neben einem BIC weder drei Leerzeichen noch zwei Großbuchstaben und ein Leerzeichen; ohne BIC nicht ein Land der Länderliste und ein Leerzeichen"),
    (27, "Überweisung: T8 hat nicht die Form eines BIC, und T9b ist leer"),
    (28, "T10a ist nicht ein Land der Länderliste und ein Leerzeichen"),
    (29, "erste Zeile von T10b leer; bei einem Scheck auch Zeile 3 oder Zeile 4"),
    (30, "T11 besteht nicht nur aus Leerzeichen"),
    (31, "Überweisung: T12 beginnt nicht mit `/` und einem Zeichen, das kein Leerzeichen ist; Scheck: T12 ist nicht leer"),
    (32, "T13 ist nicht EUR"),
    (33, "ein Zeichen in T14a oder T14b ist keine Ziffer, die letzte Ziffer von T14b ist nicht 0, oder der Betrag ist null"),
    (34, "ein Zeichen in T16 bis T19 oder T25 ist keine Ziffer, oder T27 ist nicht 00"),
    (35, "T26 besteht nicht nur aus Leerzeichen"),
    (40, "ein Zeichen in Z3 oder Z4 ist keine Ziffer, oder Z5 besteht nicht nur aus Leerzeichen"),
    (41, "Z4 ist nicht die Anzahl der T-Sätze"),
    (42, "Z3 ist nicht die Summe aller T14a (volle Euro, ohne Cent)"),
    (43, "Vorbereiten, M8: alle Zahlungen kämen zurück"),
    (50, "Prüfen, Buch: die Dateinummer (Q4, Q6, Q7) ist schon vergeben"),
    (51, "Buch: 200 Nummern sind belegt"),
    (52, "Buch: der Tag liegt vor dem Tag des Buches"),
    (53, "Buch: mehr als 9.999 Zahlungen oder mehr als 999.999.999.999.999 Euro"),
    (60, "Vorbereiten, M8, Wiederherstellen: Platz für die Ausgabe kleiner als die Datei, die weitergeht oder wiederhergestellt wird, oder als die M8-Sätze"),
    (61, "Vorbereiten: mehr Änderungen in der Datei, die weitergeht, als Plätze für Vermerke"),
    (62, "M8: die Codetabelle hat nicht 96 Bytes"),
    (63, "Vorbereiten: weniger Plätze in der Rückgabeliste als Zahlungen, die zurückkommen"),
    (70, "Wiederherstellen: keine Datei, die in Ordnung ist, ergibt dieses Paar"),
];

const FIELDS: [(&str, &str, &str); 43] = [
    ("Q3", "bank code of the receiving bank", "BLZ der dateiempfangenden Bank"),
    ("Q4", "number of the office", "Ordnungsnummer (Gebernummer)"),
    ("Q5", "ordering party", "Auftraggeber"),
    ("Q6", "date of the file", "Erstellungsdatum"),
    ("Q7", "number of the file on that day", "laufende Tagesnummer"),
    ("Q8", "first day of execution", "erster Ausführungstermin"),
    ("Q9", "reports to the authority", "Weiterleitung an die Behörde"),
    ("Q10", "no meaning here", "hier ohne Bedeutung"),
    ("Q11", "no meaning here", "hier ohne Bedeutung"),
    ("Q12", "no meaning here; spaces", "hier ohne Bedeutung; Leerzeichen"),
    ("T3", "bank code of the payer's account", "BLZ der kontoführenden Stelle"),
    ("T4a", "currency of the payer's account", "ISO-Währungscode des Kontos"),
    ("T4b", "payer's account", "Konto des Zahlers"),
    ("T5", "day of execution", "Ausführungstermin Einzelzahlung"),
    ("T6", "bank code of the account for charges", "BLZ Entgeltkonto"),
    ("T7a", "currency of the account for charges", "Währung Entgeltkonto"),
    ("T7b", "account for charges", "Entgeltkonto"),
    ("T8", "BIC or clearing code of the payee's bank", "BIC oder Nationaler Clearingcode des Zahlungsdienstleisters"),
    ("T9a", "country of the payee's bank", "Ländercode des Zahlungsdienstleisters"),
    ("T9b", "name and address of the payee's bank", "Name und Anschrift des Zahlungsdienstleisters"),
    ("T10a", "payee's country", "Ländercode des Zahlungsempfängers"),
    ("T10b", "payee", "Zahlungsempfänger"),
    ("T11", "order clause", "Ordervermerk"),
    ("T12", "payee's IBAN or account number", "IBAN bzw. Kontonummer des Zahlungsempfängers"),
    ("T13", "currency of the payment", "Auftragswährung"),
    ("T14a", "amount before the comma", "Betrag (Vorkommastellen)"),
    ("T14b", "amount behind the comma", "Betrag (Nachkommastellen)"),
    ("T15", "purpose of the payment", "Verwendungszweck"),
    ("T16", "instruction key 1", "Weisungsschlüssel 1"),
    ("T17", "instruction key 2", "Weisungsschlüssel 2"),
    ("T18", "instruction key 3", "Weisungsschlüssel 3"),
    ("T19", "instruction key 4", "Weisungsschlüssel 4"),
    ("T20", "more on the instruction keys", "Zusatzinfos zum Weisungsschlüssel"),
    ("T21", "who bears the charges", "Entgeltregelung"),
    ("T22", "kind of payment", "Kennzeichen Zahlungsart"),
    ("T23", "payer's reference", "Referenz des Zahlers"),
    ("T24", "name and telephone number", "Name und Telefonnummer"),
    ("T25", "reporting key", "Meldeschlüssel"),
    ("T26", "no meaning here; spaces", "hier ohne Bedeutung; Leerzeichen"),
    ("T27", "mark for an extension", "Erweiterungskennzeichen"),
    ("Z3", "control total, whole euros", "Kontrollsumme (volle Euro)"),
    ("Z4", "number of T records", "Anzahl der T-Sätze"),
    ("Z5", "no meaning here; spaces", "hier ohne Bedeutung; Leerzeichen"),
];

/// In the words of table 20 of the receiver's specification.
const MEANINGS: [(&str, &str); 15] = [
    ("FI0103", "Formatfehler T-Satz"),
    ("LW0101", "Kein Leitweg ermittelbar"),
    ("TX0101", "Kontonummer im Auftrag stimmt nicht mit Belastungskonto überein"),
    ("TX0103", "Entgeltformat nicht zulässig"),
    ("TX0104", "Zahlungsart im Auftrag nicht zugelassen"),
    ("TX0105", "Währung nicht zulässig"),
    ("TX0106", "Angaben zum Zahlungsdienstleister des Zahlungsempfängers nicht korrekt"),
    ("TX0107", "Angaben zum Zahlungsempfänger nicht vorhanden/Kontonummer des Empfängers fehlt bei Überweisung"),
    ("FO0101", "Ungültiges Dateiformat"),
    ("FI0101", "Doppeleinreichung auf File-Ebene"),
    ("FI0102", "Summe der einzelnen Beträge stimmt nicht mit Kontrollsumme überein"),
    ("BE0101", "Keine Berechtigung zur Einreichung vom Kontoinhaber"),
    ("BL0101", "Fehler auf Bulkebene"),
    ("TX0102", "Zahlungstyp nicht zulässig"),
    ("TX0201", "Maximalanzahl der fehlerhaften Transaktionen erreicht"),
];

#[cfg(test)]
mod tests {
    use super::*;
    use desk::M8_CODES;

    /// The rows of a paper's tables that have so many cells at least.
    fn rows(paper: &'static str, cells: usize) -> impl Iterator<Item = Vec<&'static str>> {
        let rows = paper.lines().filter_map(|row| row.strip_prefix("| ")?.strip_suffix(" |"));
        rows.map(|row| row.split(" | ").collect::<Vec<_>>()).filter(move |row| row.len() >= cells)
    }

    fn words_rows() -> impl Iterator<Item = Vec<&'static str>> {
        rows(include_str!("../../../docs/WORDS.md"), 3)
    }

    #[test]
    fn refusals() {
        let papers = words_rows().filter_map(|row| Some((row[0].parse().ok()?, row[1], row[2])));
        let papers: Vec<(u64, &str, &str)> = papers.collect();
        assert_eq!(papers.len(), REFUSALS.len());
        for (number, english, german) in papers {
            let broken = Refusal { number, record: 0, at: 0 };
            assert_eq!(refusal(Lang::En, broken), english, "{number}");
            assert_eq!(refusal(Lang::De, broken), german, "{number}");
        }
    }

    #[test]
    fn labels() {
        let fields: Vec<&str> = "QTZ".chars().flat_map(desk::fields).map(|columns| columns.field).collect();
        let papers: Vec<_> = words_rows().filter(|row| fields.contains(&row[0])).collect();
        assert_eq!(papers.iter().map(|row| row[0]).collect::<Vec<_>>(), fields);
        for row in papers {
            assert_eq!(label(Lang::En, row[0]), row[1]);
            assert_eq!(label(Lang::De, row[0]), row[2]);
        }
    }

    #[test]
    fn meanings() {
        let is_code = |cell: &str| cell.len() == 6 && cell.ends_with(|last: char| last.is_ascii_digit());
        let papers: Vec<_> = rows(include_str!("../../../docs/M8-CODES.md"), 4).filter(|row| is_code(row[0])).collect();
        assert_eq!(papers.len(), MEANINGS.len());
        for row in papers {
            assert_eq!(meaning(Lang::De, row[0]), row[1]);
            assert_eq!(meaning(Lang::En, row[0]), row[2]);
        }
        for code in M8_CODES.chunks(6) {
            meaning(Lang::De, std::str::from_utf8(code).unwrap());
        }
    }
}
