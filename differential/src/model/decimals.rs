//! Texts in the places of numbers, counted by what they are. No answer depends on it.
use super::coerce::Entries;
use super::number::is_tie;
use super::sheet::{Row, ARRAY, STR};
use super::text::{after_hex_mark, decimal, hash_text, parses_float, parts, trim, whole};
use super::write::Writer;
use crate::branch::{Case, Way};

/// A text in a float's place.
fn float_ways(t: &[u8]) -> Vec<Way> {
    let Some(d) = decimal(t) else { return vec![if parses_float(t) { Way::FloatText } else { Way::Wrong }] };
    let mut out = vec![Way::Decimal];
    if is_tie(d) {
        out.push(Way::Tie);
    }
    if d.minus && d.digits == 0 {
        out.push(Way::MinusZero);
    }
    out
}

/// A text in an integer's place that no whole number and no hexadecimal mark begins.
fn whole_ways(t: &[u8]) -> Vec<Way> {
    if after_hex_mark(t).is_some() || whole(t, 10).is_some() {
        return Vec::new();
    }
    match decimal(t) {
        Some(d) if d.has_fraction() => vec![Way::Decimal, Way::Fraction],
        Some(_) => vec![Way::Decimal],
        None if parses_float(t) => vec![Way::FloatText],
        None => Vec::new(),
    }
}

/// A vector's text: what its first part that is no decimal is and where it stands, or how many parts there are.
fn vector_way(t: &[u8], wanted: usize) -> Way {
    let Some((k, part)) = parts(t).enumerate().find(|(_, p)| decimal(p).is_none()) else {
        return match parts(t).count() {
            0 => Way::NoPart,
            n if n < wanted => Way::Few,
            n if n > 4 => Way::More,
            _ => Way::Decimal,
        };
    };
    match (parses_float(part), k) {
        (true, 0) => Way::FloatText,
        (true, 1..=3) => Way::FloatBehind,
        (true, _) => Way::FloatFifth,
        (false, 0) => Way::Bad,
        (false, 1..=3) => Way::BadBehind,
        (false, _) => Way::BadFifth,
    }
}

/// The way of an Array's item that is a text.
fn item_way(way: Way) -> Option<Way> {
    match way {
        Way::Decimal => Some(Way::Item),
        Way::FloatText => Some(Way::FloatItem),
        _ => None,
    }
}

impl Writer<'_> {
    fn count(&mut self, case: Case, ways: impl IntoIterator<Item = Way>) {
        ways.into_iter().for_each(|way| self.state.hits.hit(case, way));
    }

    pub(super) fn count_float(&mut self, row: &Row) {
        if row.kind == STR {
            self.count(Case::TextFloat, float_ways(trim(self.sheet.text(row))));
        }
    }

    pub(super) fn count_whole(&mut self, case: Case, row: &Row) {
        if row.kind == STR {
            self.count(case, whole_ways(trim(self.sheet.text(row))));
        }
    }

    pub(super) fn count_vector(&mut self, row: &Row, wanted: usize) {
        let sheet = self.sheet;
        if row.kind == STR {
            self.count(Case::TextVector, [vector_way(sheet.text(row), wanted)]);
        }
        for item in sheet.children(row).take(if row.kind == ARRAY { 4 } else { 0 }).map(|r| &sheet.rows[r]).filter(|r| r.kind == STR) {
            self.count(Case::TextVector, float_ways(trim(sheet.text(item))).into_iter().filter_map(item_way));
        }
    }

    pub(super) fn count_enum(&mut self, row: &Row, entries: Entries) {
        self.count_whole(Case::TextEnum, row);
        if row.kind == STR && self.is_entry(trim(self.sheet.text(row)), entries) {
            self.count(Case::TextEnum, [Way::OwnName]);
        }
    }

    /// A decimal by its form, and the name of an entry too.
    fn is_entry(&self, t: &[u8], entries: Entries) -> bool {
        decimal(t).is_some() && whole(t, 10).is_none() && entries.iter().any(|e| e.0 == hash_text(t))
    }

    pub(super) fn count_flags(&mut self, row: &Row, entries: Entries) {
        let sheet = self.sheet;
        self.count_whole(Case::TextFlags, row);
        if row.kind == STR && parts(sheet.text(row)).count() > 1 && parts(sheet.text(row)).any(|p| self.is_entry(p, entries)) {
            self.count(Case::TextFlags, [Way::Part]);
        }
        for item in sheet.children(row).take(if row.kind == ARRAY { 64 } else { 0 }).map(|r| &sheet.rows[r]).filter(|r| r.kind == STR) {
            self.count(Case::TextFlags, whole_ways(trim(sheet.text(item))).into_iter().filter_map(item_way));
        }
    }
}
