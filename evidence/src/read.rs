//! Reading a survey text (01, "Survey text and printed plan"; also lines: No. 2), from the first byte towards the last.

use crate::{
    refuse, Refusal, Survey, COUNT_DIGITS, END_DIGITS, MAX_GROUP, MAX_JUNCTIONS, MAX_PAIRS, MAX_TRACKS, PRICE_DIGITS,
};

/// The lengths of the six buffers that reading fills.
#[derive(Clone, Copy, Debug)]
pub struct Lengths {
    pub groups: usize,
    pub first: usize,
    pub second: usize,
    pub prices: usize,
    pub owners: usize,
    pub others: usize,
}

impl Lengths {
    /// Lengths with which reading never gives 7.
    pub const ENOUGH: Lengths = Lengths {
        groups: MAX_JUNCTIONS,
        first: MAX_TRACKS,
        second: MAX_TRACKS,
        prices: MAX_TRACKS,
        owners: MAX_PAIRS,
        others: MAX_PAIRS,
    };
}

/// The buffers that reading fills.
pub struct Lent<'a> {
    pub groups: &'a mut [u8],
    pub first: &'a mut [u32],
    pub second: &'a mut [u32],
    pub prices: &'a mut [u32],
    pub owners: &'a mut [u32],
    pub others: &'a mut [u8],
}

impl Lent<'_> {
    pub fn lengths(&self) -> Lengths {
        Lengths {
            groups: self.groups.len(),
            first: self.first.len(),
            second: self.second.len(),
            prices: self.prices.len(),
            owners: self.owners.len(),
            others: self.others.len(),
        }
    }
}

/// A text and how far it is read.
pub(crate) struct Cursor<'a> {
    text: &'a [u8],
    at: usize,
}

impl<'a> Cursor<'a> {
    pub(crate) fn new(text: &'a [u8]) -> Cursor<'a> {
        Cursor { text, at: 0 }
    }

    /// 16 at the cursor. At the end of the text that is its length.
    pub(crate) fn malformed<T>(&self) -> Result<T, Refusal> {
        refuse(16, self.at)
    }

    pub(crate) fn next(&self) -> Option<u8> {
        self.text.get(self.at).copied()
    }

    /// What stands behind the cursor.
    pub(crate) fn rest(&self) -> &'a [u8] {
        &self.text[self.at..]
    }

    /// The text ends here, or 16.
    pub(crate) fn end(&self) -> Result<(), Refusal> {
        self.next().map_or(Ok(()), |_| self.malformed())
    }

    /// Takes exactly these bytes.
    pub(crate) fn fixed(&mut self, bytes: &[u8]) -> Result<(), Refusal> {
        for &byte in bytes {
            if self.next() != Some(byte) {
                return self.malformed();
            }
            self.at += 1;
        }
        Ok(())
    }

    /// Takes one digit to this many, no 0 before another digit. What follows is the caller's to judge: a digit too many
    /// and a digit after a leading 0 are bytes that no comma and no line end can be.
    pub(crate) fn number(&mut self, most: usize) -> Result<u64, Refusal> {
        let start = self.at;
        let mut value = 0;
        while let Some(byte @ b'0'..=b'9') = self.next() {
            let digits = self.at - start;
            if digits == most || (digits == 1 && value == 0) {
                return self.malformed();
            }
            value = 10 * value + u64::from(byte - b'0');
            self.at += 1;
        }
        if self.at == start {
            return self.malformed();
        }
        Ok(value)
    }
}

/// The survey that a text holds, for buffers of these lengths, or the earliest finding: 1, 3, 7, 16, 17 or 18.
pub fn parse(text: &[u8], lengths: Lengths) -> Result<Survey, Refusal> {
    let mut cursor = Cursor::new(text);
    let survey = survey_lines(&mut cursor, lengths)?;
    cursor.end()?;
    Ok(survey)
}

/// The survey whose lines stand at the cursor, which is then behind them.
pub(crate) fn survey_lines(cursor: &mut Cursor, lengths: Lengths) -> Result<Survey, Refusal> {
    cursor.fixed(b"nodes=")?;
    let n = cursor.number(COUNT_DIGITS)? as usize;
    cursor.fixed(b"\n")?;
    if n == 0 || n > MAX_JUNCTIONS {
        return refuse(1, 0);
    }
    if lengths.groups < n {
        return refuse(7, 0);
    }

    cursor.fixed(b"links=")?;
    let m = cursor.number(COUNT_DIGITS)? as usize;
    cursor.fixed(b"\n")?;
    if m > MAX_TRACKS {
        return refuse(3, 0);
    }
    if lengths.first < m || lengths.second < m || lengths.prices < m {
        return refuse(7, 0);
    }

    let mut survey = Survey::default();
    for junction in 0..n {
        cursor.fixed(b"node=")?;
        let group = cursor.number(COUNT_DIGITS)?;
        cursor.fixed(b"\n")?;
        if group > u64::from(MAX_GROUP) {
            return refuse(17, junction);
        }
        survey.groups.push(group as u8);
    }
    // An also line may stand here as long as there are fewer than 256; every other byte belongs to what comes after.
    while cursor.next() == Some(b'a') && survey.owners.len() < MAX_PAIRS {
        cursor.fixed(b"also=")?;
        let v = cursor.number(END_DIGITS)?;
        cursor.fixed(b",")?;
        let group = cursor.number(END_DIGITS)?;
        cursor.fixed(b"\n")?;
        if group > u64::from(MAX_GROUP) {
            return refuse(17, v as usize);
        }
        let pair = survey.owners.len();
        survey.owners.push(v as u32);
        survey.others.push(group as u8);
        if survey.view().is_bad_pair(pair) {
            return refuse(18, pair);
        }
        if lengths.owners <= pair || lengths.others <= pair {
            return refuse(7, 0);
        }
    }
    for _ in 0..m {
        cursor.fixed(b"link=")?;
        survey.first.push(cursor.number(END_DIGITS)? as u32);
        cursor.fixed(b",")?;
        survey.second.push(cursor.number(END_DIGITS)? as u32);
        cursor.fixed(b",")?;
        survey.prices.push(cursor.number(PRICE_DIGITS)? as u32);
        cursor.fixed(b"\n")?;
    }
    Ok(survey)
}

/// Reads a text into lent buffers and answers with n, m and the number of pairs. What the text says goes into the
/// buffers' beginnings, and only if nothing is refused; everything else keeps its values.
pub fn read(text: &[u8], lent: Lent) -> Result<[u64; 3], Refusal> {
    let survey = parse(text, lent.lengths())?;
    let (n, m, pairs) = (survey.groups.len(), survey.first.len(), survey.owners.len());
    lent.groups[..n].copy_from_slice(&survey.groups);
    lent.first[..m].copy_from_slice(&survey.first);
    lent.second[..m].copy_from_slice(&survey.second);
    lent.prices[..m].copy_from_slice(&survey.prices);
    lent.owners[..pairs].copy_from_slice(&survey.owners);
    lent.others[..pairs].copy_from_slice(&survey.others);
    Ok([n, m, pairs].map(|count| count as u64))
}
