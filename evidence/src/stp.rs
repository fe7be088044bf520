//! Reading an STP file of SteinLib (No. 5): the undirected subset, from the first byte towards the last.

use crate::read::Lengths;
use crate::{refuse, Refusal, Survey, COUNT_DIGITS, MAX_JUNCTIONS, MAX_TRACKS, PRICE_DIGITS};

/// The first line of every file.
pub const HEADER: &str = "33D32945 STP File, STP Format Version 1.0";

struct Cursor<'a> {
    text: &'a [u8],
    at: usize,
}

impl Cursor<'_> {
    /// 20 at the cursor. At the end of the text that is its length.
    fn malformed<T>(&self) -> Result<T, Refusal> {
        refuse(20, self.at)
    }

    fn next(&self) -> Option<u8> {
        self.text.get(self.at).copied()
    }

    fn fixed(&mut self, bytes: &str) -> Result<(), Refusal> {
        for byte in bytes.bytes() {
            if self.next() != Some(byte) {
                return self.malformed();
            }
            self.at += 1;
        }
        Ok(())
    }

    /// The end of a line, and the empty lines that follow it.
    fn end(&mut self) -> Result<(), Refusal> {
        self.fixed("\n")?;
        self.empty();
        Ok(())
    }

    fn empty(&mut self) {
        while self.next() == Some(b'\n') {
            self.at += 1;
        }
    }

    fn line(&mut self, bytes: &str) -> Result<(), Refusal> {
        self.fixed(bytes)?;
        self.end()
    }

    /// A number, taken digit by digit as long as `goes_on` says that the digits so far begin one that may stand here.
    /// It has no 0 before another digit.
    fn number(&mut self, goes_on: impl Fn(u32, usize) -> bool) -> Result<u32, Refusal> {
        let start = self.at;
        let mut value = 0;
        while let Some(byte @ b'0'..=b'9') = self.next() {
            let digits = self.at - start;
            let more = 10 * value + u32::from(byte - b'0');
            if (digits == 1 && value == 0) || !goes_on(more, digits + 1) {
                return self.malformed();
            }
            value = more;
            self.at += 1;
        }
        if self.at == start {
            return self.malformed();
        }
        Ok(value)
    }
}

/// Does a number up to this begin with these digits, among those that `may` stand?
fn begins_one(digits: u32, highest: usize, may: impl Fn(usize) -> bool) -> bool {
    let digits = digits as usize;
    // The numbers with one digit more each, as long as they are not too high.
    let mut low = digits;
    let mut many = 1;
    while digits != 0 && low <= highest {
        if (low..low + many).any(|number| number <= highest && may(number)) {
            return true;
        }
        low *= 10;
        many *= 10;
    }
    false
}

/// The survey that a file holds, for buffers of these lengths, or the earliest finding: 1, 3, 7 or 20. Junctions count
/// from 0; terminals have group 1, all others none.
pub fn parse(text: &[u8], lengths: Lengths) -> Result<Survey, Refusal> {
    let mut cursor = Cursor { text, at: 0 };
    cursor.line(HEADER)?;
    cursor.fixed("SECTION ")?;
    if cursor.next() == Some(b'C') {
        cursor.fixed("Comment\n")?;
        // Any lines, up to the first that is just this word.
        loop {
            let rest = &text[cursor.at..];
            let Some(end) = rest.iter().position(|&byte| byte == b'\n') else { return refuse(20, text.len()) };
            cursor.at += end + 1;
            if &rest[..end] == b"END" {
                break;
            }
        }
        cursor.empty();
        cursor.fixed("SECTION ")?;
    }
    cursor.line("Graph")?;

    let count = |_: u32, digits: usize| digits <= COUNT_DIGITS;
    cursor.fixed("Nodes ")?;
    let n = cursor.number(count)? as usize;
    cursor.fixed("\n")?;
    if n == 0 || n > MAX_JUNCTIONS {
        return refuse(1, 0);
    }
    if lengths.groups < n {
        return refuse(7, 0);
    }
    cursor.empty();
    cursor.fixed("Edges ")?;
    let m = cursor.number(count)? as usize;
    cursor.fixed("\n")?;
    if m > MAX_TRACKS {
        return refuse(3, 0);
    }
    if lengths.first < m || lengths.second < m || lengths.prices < m {
        return refuse(7, 0);
    }
    cursor.empty();

    let mut survey = Survey { groups: vec![0; n], ..Survey::default() };
    let end = |value: u32, _: usize| value != 0 && value as usize <= n;
    for _ in 0..m {
        cursor.fixed("E ")?;
        survey.first.push(cursor.number(end)? - 1);
        cursor.fixed(" ")?;
        survey.second.push(cursor.number(end)? - 1);
        cursor.fixed(" ")?;
        survey.prices.push(cursor.number(|_, digits| digits <= PRICE_DIGITS)?);
        cursor.end()?;
    }
    cursor.line("END")?;
    cursor.line("SECTION Terminals")?;
    cursor.fixed("Terminals ")?;
    // So many different ones have to follow, so there are no more than junctions.
    let terminals = cursor.number(|value, _| value as usize <= n)?;
    cursor.end()?;
    for _ in 0..terminals {
        cursor.fixed("T ")?;
        let v = cursor.number(|value, _| begins_one(value, n, |v| survey.groups[v - 1] == 0))? as usize;
        // A terminal that is one already is no number to end with, though a longer one may go on.
        if survey.groups[v - 1] != 0 {
            return cursor.malformed();
        }
        survey.groups[v - 1] = 1;
        cursor.end()?;
    }
    cursor.line("END")?;
    cursor.line("EOF")?;
    if cursor.next().is_some() {
        return cursor.malformed();
    }
    Ok(survey)
}

/// The buffers that reading fills.
pub struct Lent<'a> {
    pub groups: &'a mut [u8],
    pub first: &'a mut [u32],
    pub second: &'a mut [u32],
    pub prices: &'a mut [u32],
}

impl Lent<'_> {
    pub fn lengths(&self) -> Lengths {
        Lengths {
            groups: self.groups.len(),
            first: self.first.len(),
            second: self.second.len(),
            prices: self.prices.len(),
            owners: 0,
            others: 0,
        }
    }
}

/// Reads a file into lent buffers and answers with n and m. What it says goes into the buffers' beginnings, and only if
/// nothing is refused; everything else keeps its values.
pub fn read(text: &[u8], lent: Lent) -> Result<[u64; 2], Refusal> {
    let survey = parse(text, lent.lengths())?;
    let (n, m) = (survey.groups.len(), survey.first.len());
    lent.groups[..n].copy_from_slice(&survey.groups);
    lent.first[..m].copy_from_slice(&survey.first);
    lent.second[..m].copy_from_slice(&survey.second);
    lent.prices[..m].copy_from_slice(&survey.prices);
    Ok([n, m].map(|count| count as u64))
}
