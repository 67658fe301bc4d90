//! A refusal as it is printed.

use margin_engine::{Refusal, read};

use crate::input::Source;
use crate::output::Sheet;
use crate::spot::{self, Spot, printable};
use crate::verbs::Question;

/// A refusal, and what helps to mend it.
pub struct Refused {
    refusal: Refusal,
    spot: Spot,
    /// The line of a match file, from 1, in which the position at fault begins.
    begins: Option<usize>,
}

impl Refused {
    /// A table that is refused, or this question about it.
    pub fn of(refusal: Refusal, text: &[u8], question: &dyn Question) -> Refused {
        let mut spot = spot::of(text, &refusal);
        // Where the table is accepted, it is what was asked that is refused.
        if let Ok(table) = read(text)
            && spot.line.is_none()
        {
            spot.detail = question.given(&refusal, &table);
        }
        Refused {
            refusal,
            spot,
            begins: None,
        }
    }

    /// A match file that is refused.
    pub fn in_match(refusal: Refusal, file: &[u8]) -> Refused {
        let (spot, begins) = spot::in_match(file, &refusal);
        Refused {
            refusal,
            spot,
            begins: Some(begins),
        }
    }

    /// What was asked is refused, whatever the files are; `detail` says what it was.
    pub fn given(refusal: Refusal, detail: String) -> Refused {
        let spot = Spot {
            detail,
            ..Spot::default()
        };
        Refused {
            refusal,
            spot,
            begins: None,
        }
    }

    fn reason(&self) -> String {
        let reason = self.spot.reason.unwrap_or(self.refusal.reason());
        match self.spot.detail.as_str() {
            "" => reason.to_string(),
            detail => format!("{reason}: {detail}"),
        }
    }

    fn mend(&self) -> &'static str {
        self.spot.mend.unwrap_or(self.refusal.mend())
    }

    /// The line of a match file that is shown, or the first of the position at fault
    /// where none is.
    fn line_of_file(&self) -> Option<usize> {
        let number = self.spot.line.as_ref().and_then(|line| line.number);
        let below = number.map_or(0, |number| 1 + number);
        self.begins.map(|begins| begins + below)
    }

    /// For people, about a file from there if one is refused.
    pub fn people(&self, source: Option<&Source>) -> String {
        let Refusal { number, line, .. } = self.refusal;
        let position = self.line_of_file().map(|line| {
            let position = self.refusal.position;
            format!("position {position}, line {line} of the file: ")
        });
        let position = position.unwrap_or_default();
        let place = match line {
            _ if !self.refusal.has_line() => String::new(),
            0 => " at line 0 (the header)".to_string(),
            _ => format!(" at line {line} (node {}; the header is line 0)", line - 1),
        };
        let source = source.map_or(String::new(), |source| format!("{source}: "));
        let mut text = format!("desk: {source}{position}refused {number}{place}\n");
        if let Some(line) = &self.spot.line {
            text += &format!("  |{}|\n", printable(&line.bytes));
            text += &self.marks();
        }
        let (reason, mend) = (self.reason(), self.mend());
        text + &format!("reason  {reason}\nmend    {mend}\n")
    }

    /// A mark under each column at fault, and the columns in words.
    fn marks(&self) -> String {
        let columns = &self.spot.columns;
        let last = columns.iter().map(|field| field.last).max().unwrap_or(0);
        let at_fault = |column| {
            let mut fields = columns.iter();
            fields.any(|field| (field.first..=field.last).contains(&column))
        };
        let mark = |column| if at_fault(column) { '^' } else { ' ' };
        let marks: String = (1..=last).map(mark).collect();

        let words = columns.iter().map(|field| match field.last - field.first {
            0 => field.first.to_string(),
            _ => format!("{}-{}", field.first, field.last),
        });
        let words = words.collect::<Vec<_>>().join(", ");
        let one = columns.len() == 1 && columns[0].first == last;
        let noun = if one { "column" } else { "columns" };
        format!("   {marks} {noun} {words}\n")
    }

    /// For spreadsheets.
    pub fn tsv(&self) -> String {
        let mut sheet = Sheet::default();
        sheet.row("refused", &[&self.refusal.number]);
        sheet.row("line", &[&self.refusal.line]);
        if let Some(line) = self.line_of_file() {
            sheet.row("at", &[&self.refusal.position, &line]);
        }
        if let Some(line) = &self.spot.line {
            let number = line.number.map(|number| number.to_string());
            sheet.row("shown", &[&number.unwrap_or_default()]);
        }
        for field in &self.spot.columns {
            sheet.row("columns", &[&field.first, &field.last]);
        }
        sheet.row("reason", &[&self.reason()]);
        sheet.row("mend", &[&self.mend()]);
        sheet.into_text()
    }
}
