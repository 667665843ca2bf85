//! Scripts as a trainee writes them: a call in words or in the numbers of the second program, one a line.

use second::script::Call;

/// The numbers behind a word.
struct Rest<'a> {
    words: std::str::SplitWhitespace<'a>,
}

impl Rest<'_> {
    /// The next number, decimal, or hexadecimal behind 0x.
    fn hash(&mut self) -> Result<u64, String> {
        let word = self.words.next().ok_or("a number is missing")?;
        let read = match word.strip_prefix("0x") {
            Some(digits) => u64::from_str_radix(digits, 16),
            None => word.parse(),
        };
        read.map_err(|_| format!("'{word}' is no number"))
    }

    fn number(&mut self) -> Result<u32, String> {
        let number = self.hash()?;
        u32::try_from(number).map_err(|_| format!("{number} is too large"))
    }

    /// The number of words of Double's second main, if it is given.
    fn count(&mut self) -> Result<Option<usize>, String> {
        if self.words.clone().next().is_none() {
            return Ok(None);
        }
        self.number().map(|count| Some(count as usize))
    }
}

/// The call of one line; nothing for an empty line or a remark behind '#'. A Double without a number
/// is lent as many words as it needs where the main has `slots` words.
pub fn read(line: &str, slots: usize) -> Result<Option<Call>, String> {
    let text = line.split('#').next().unwrap_or_default();
    let mut rest = Rest {
        words: text.split_whitespace(),
    };
    let Some(first) = rest.words.next() else {
        return Ok(None);
    };
    if first.starts_with(|c: char| c.is_ascii_digit()) {
        return Call::parse(text).map(Some);
    }
    let call = match first {
        "start" => Call::Start(rest.number()?, rest.number()?, rest.number()?),
        "query" => Call::Query(rest.hash()?),
        "insert" => Call::Insert(rest.hash()?),
        "delete" => Call::Delete(rest.hash()?),
        "rejuvenate" => Call::Rejuvenate(rest.hash()?),
        "audit" => Call::Audit,
        "settle" => Call::Settle,
        "double" => Call::Double(rest.count()?.unwrap_or(2 * slots)),
        _ => return Err(format!("no call is called '{first}'")),
    };
    match rest.words.next() {
        None => Ok(Some(call)),
        Some(more) => Err(format!("unexpected '{more}' at the end of a line")),
    }
}

/// A call as words.
pub fn written(call: &Call) -> String {
    match call {
        Call::Load(_) => String::from("a filter loaded"),
        Call::Start(power, f, regime) => format!("start {power} {f} {regime}"),
        Call::Query(hash) => format!("query {hash}"),
        Call::Insert(hash) => format!("insert {hash}"),
        Call::Delete(hash) => format!("delete {hash}"),
        Call::Rejuvenate(hash) => format!("rejuvenate {hash}"),
        Call::Audit => String::from("audit"),
        Call::Settle => String::from("settle"),
        Call::Double(_) => String::from("double"),
        Call::Part(length) => format!("part {length}"),
        Call::Bytes(k, w, hash, _) => format!("exported query {hash} with k {k}, W {w}"),
        Call::Show | Call::End => String::new(),
    }
}

/// What document 01 says a number means.
pub fn meaning(call: &Call, number: u32) -> &'static str {
    let asks = matches!(call, Call::Query(_) | Call::Bytes(..));
    match number {
        0 if asks => "no",
        1 => "yes",
        0 => "done",
        2 => "record out of range",
        3 => "wrong length",
        4 => "state not sound",
        5 => "used equals the load limit",
        6 => "nothing matches",
        7 => "the longest match is void and the queue is full",
        8 => "queue not empty",
        9 => "k is 20",
        10 => "the new annex table does not fit",
        11 => "Start's numbers out of range",
        _ => "no listed number",
    }
}

#[cfg(test)]
mod tests {
    use super::*;

    #[test]
    fn words_and_numbers_are_the_same_calls() {
        let pairs = [
            ("start 3 3 0", "1 3 3 0"),
            ("query 0x14", "2 20"),
            ("insert 20 # a remark", "3 20"),
            ("delete 20", "4 20"),
            ("rejuvenate 84", "5 84"),
            ("audit", "6"),
            ("settle", "7"),
            ("double", "8 16"),
            ("double 9", "8 9"),
        ];
        for (words, numbers) in pairs {
            assert_eq!(read(words, 8), read(numbers, 8), "{words}");
            assert!(matches!(read(words, 8), Ok(Some(_))), "{words}");
        }
    }

    #[test]
    fn faults_are_told() {
        for line in [
            "insert",
            "insert x",
            "insert 1 2",
            "remove 1",
            "13",
            "start 3 3",
        ] {
            assert!(read(line, 8).is_err(), "{line}");
        }
        assert_eq!(read("  # nothing", 8), Ok(None));
    }
}
