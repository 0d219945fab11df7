//! The lines that `levels` and `mouldgrey apply` read: a letter and decimals, a comma before each. docs/LEVELS.md describes them.

use mouldgrey::raw::Constraint;

/// The most characters of a line, its newline not counted.
pub const LONGEST_LINE: usize = 120;

/// A line of one of the forms.
#[derive(Clone, Debug, PartialEq, Eq)]
pub enum Line {
    /// `O`: columns, keys, sort column, rule, capacity, generation.
    Open([u32; 6]),
    /// Any other letter.
    On(Operation),
}

/// What a line does on a table.
#[derive(Clone, Debug, PartialEq, Eq)]
pub enum Operation {
    /// `I`: the cells.
    Insert(Vec<u32>),
    /// `R`: the key cells.
    Remove(Vec<u32>),
    /// `K`: a row number and the key cells.
    RemoveRow(u32, Vec<u32>),
    /// `M`.
    Merge,
    /// `G`.
    Compact,
    /// `C`.
    Clear,
    /// `F`: a condition, of any numbers.
    Fast(Constraint),
    /// `V`.
    Version,
    /// `L`, or `U` for a listing with row numbers.
    List { numbered: bool },
}

impl Line {
    /// The line that these bytes are, without their newline; none if they have none of the forms.
    pub fn parse(bytes: &[u8]) -> Option<Line> {
        if bytes.len() > LONGEST_LINE {
            return None;
        }
        let mut fields = bytes.split(|&byte| byte == b',');
        let &[letter] = fields.next()? else {
            return None;
        };
        let numbers: Vec<u32> = fields.map(decimal).collect::<Option<_>>()?;
        match letter {
            b'O' => Some(Line::Open(numbers.try_into().ok()?)),
            _ => Operation::of(letter, &numbers).map(Line::On),
        }
    }
}

impl Operation {
    /// The operation of this letter and these numbers.
    fn of(letter: u8, numbers: &[u32]) -> Option<Operation> {
        Some(match (letter, numbers) {
            (b'I', [_, ..]) => Operation::Insert(numbers.to_vec()),
            (b'R', [_, ..]) => Operation::Remove(numbers.to_vec()),
            (b'K', [row, key @ ..]) if !key.is_empty() => Operation::RemoveRow(*row, key.to_vec()),
            (b'F', &[kind, column, value]) => Operation::Fast(Constraint {
                kind,
                column,
                value,
            }),
            (b'M', []) => Operation::Merge,
            (b'G', []) => Operation::Compact,
            (b'C', []) => Operation::Clear,
            (b'V', []) => Operation::Version,
            (b'L', []) => Operation::List { numbered: false },
            (b'U', []) => Operation::List { numbered: true },
            _ => return None,
        })
    }
}

/// The number of a decimal without leading zeros, sign or spaces; none above 4294967295.
pub fn decimal(field: &[u8]) -> Option<u32> {
    let is_decimal = matches!(field, [b'0'] | [b'1'..=b'9', ..]);
    if !is_decimal || !field.iter().all(u8::is_ascii_digit) {
        return None;
    }
    std::str::from_utf8(field).ok()?.parse().ok()
}

#[cfg(test)]
mod tests {
    use super::*;

    #[test]
    fn decimals() {
        assert_eq!(decimal(b"0"), Some(0));
        assert_eq!(decimal(b"4294967295"), Some(u32::MAX));
        for wrong in ["", "00", "07", "-1", "+1", " 1", "1 ", "4294967296", "1a"] {
            assert_eq!(decimal(wrong.as_bytes()), None, "{wrong}");
        }
    }

    #[test]
    fn forms() {
        let open = Line::Open([4, 2, 3, 1, 100, 0]);
        assert_eq!(Line::parse(b"O,4,2,3,1,100,0"), Some(open));
        assert_eq!(
            Line::parse(b"K,3,7"),
            Some(Line::On(Operation::RemoveRow(3, vec![7])))
        );
        assert_eq!(
            Line::parse(b"U"),
            Some(Line::On(Operation::List { numbered: true }))
        );
        let wrong = [
            "",
            "I",
            "R",
            "K",
            "K,0",
            "m",
            "M,",
            "M,0",
            ",",
            "MM",
            "M\r",
            "I,",
            "I,1,",
            "F,1,2",
            "F,1,2,3,4",
            "O,4,2,3,1,100",
            "T",
            "D,1",
            "X,1",
            "I 1",
        ];
        for line in wrong {
            assert_eq!(Line::parse(line.as_bytes()), None, "{line}");
        }
    }

    #[test]
    fn the_longest_line() {
        let longest = format!("I{},10", ",0".repeat(58));
        assert_eq!(longest.len(), LONGEST_LINE);
        assert!(Line::parse(longest.as_bytes()).is_some());
        let longer = format!("I{},100", ",0".repeat(58));
        assert_eq!(Line::parse(longer.as_bytes()), None);
    }
}
