//! Many texts in one call of the library.

use std::ops::Range;

use crate::calls::{Columns, Texts};
use crate::violation::fail;
use crate::{calls, ffi};
use crate::{Checker, Rule, Violation};

impl Checker<'_> {
    /// What is found of each text, in their order: nothing of a valid one, or the violation that it is refused for.
    ///
    /// ```
    /// use urlcheck::{Checker, Profile};
    ///
    /// let found = Checker::new(Profile::Standard).check_many(["http://h/", "http://h/a b"]);
    /// assert!(found[0].is_ok());
    /// assert_eq!(found[1].unwrap_err().place, 10);
    /// ```
    #[must_use]
    pub fn check_many<I: IntoIterator>(self, texts: I) -> Vec<Result<(), Violation>>
    where
        I::Item: AsRef<str>,
    {
        let texts = Texts::collect(texts);
        let columns = calls::check_many(&texts, self.profile().number(), self.prepared());
        rows_of(&texts, &columns)
    }

    /// The URL of each text, in their order, or the violation for which it is refused. They share one memory.
    ///
    /// ```
    /// use urlcheck::{Checker, Profile};
    ///
    /// let urls = Checker::new(Profile::Standard).resolve_many(["http://H:80/a/../b", "x"]);
    /// assert_eq!(urls.get(0), Some(Ok("http://h/b")));
    /// assert!(urls.get(1).unwrap().is_err());
    /// ```
    #[must_use]
    pub fn resolve_many<I: IntoIterator>(self, texts: I) -> Urls
    where
        I::Item: AsRef<str>,
    {
        let texts = Texts::collect(texts);
        let (columns, urls, ends) = calls::resolve_many(&texts, self.profile().number(), self.base_text());
        let found = rows_of(&texts, &columns);
        let rows = found.into_iter().zip(ends.windows(2));
        Urls { text: urls, rows: rows.map(|(found, ends)| found.map(|()| range(ends))).collect() }
    }
}

/// The range between two offsets into memory, which fit.
fn range(ends: &[u64]) -> Range<usize> {
    let index = |end: u64| usize::try_from(end).expect("an offset into memory");
    index(ends[0])..index(ends[1])
}

/// What the columns say about each text. If nothing was checked, memory ran out, and the program ends as `fail` says.
fn rows_of(texts: &Texts, columns: &Columns) -> Vec<Result<(), Violation>> {
    if columns.outcome != ffi::DONE {
        fail(columns.outcome)
    }
    (0..texts.count()).map(|row| row_of(texts, columns, row)).collect()
}

/// What the columns say about a text. Only the place in code points is in them, so that in bytes is counted here.
fn row_of(texts: &Texts, columns: &Columns, row: usize) -> Result<(), Violation> {
    match u32::from(columns.verdicts[row]) {
        ffi::VALID => Ok(()),
        ffi::REFUSED => {
            let text = &texts.bytes[range(&texts.offsets[row..])];
            let place = usize::try_from(columns.places[row]).expect("a place in memory");
            let byte_place = text.char_indices().nth(place).map_or(text.len(), |(at, _)| at);
            Err(Violation { byte_place, place, rule: Rule::from_number(columns.rules[row].into()) })
        }
        verdict => fail(verdict),
    }
}

/// The URLs of many texts, in their order.
#[derive(Clone, Debug, Default, PartialEq, Eq)]
pub struct Urls {
    text: String,
    rows: Vec<Result<Range<usize>, Violation>>,
}

impl Urls {
    /// How many texts there were.
    #[must_use]
    pub fn len(&self) -> usize {
        self.rows.len()
    }

    /// Whether there were no texts.
    #[must_use]
    pub fn is_empty(&self) -> bool {
        self.rows.is_empty()
    }

    /// The URL of the text with this index, or the violation for which it is refused; none if there were fewer.
    #[must_use]
    pub fn get(&self, index: usize) -> Option<Result<&str, Violation>> {
        self.rows.get(index).map(|row| self.url(row))
    }

    /// The URLs and violations, in the order of the texts.
    #[must_use]
    pub fn iter(&self) -> impl ExactSizeIterator<Item = Result<&str, Violation>> + '_ {
        self.rows.iter().map(|row| self.url(row))
    }

    fn url(&self, row: &Result<Range<usize>, Violation>) -> Result<&str, Violation> {
        row.clone().map(|range| &self.text[range])
    }
}

impl<'urls> IntoIterator for &'urls Urls {
    type Item = Result<&'urls str, Violation>;
    type IntoIter = Box<dyn ExactSizeIterator<Item = Self::Item> + 'urls>;

    fn into_iter(self) -> Self::IntoIter {
        Box::new(self.iter())
    }
}
