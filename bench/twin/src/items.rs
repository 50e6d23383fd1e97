//! The items of a line, and a cursor that reads them one by one.

/// A place in a line, counted from 1, at which a fault stands.
#[derive(Clone, Copy, Debug, PartialEq, Eq)]
pub struct Place(pub usize);

#[derive(Clone, Copy, Debug, PartialEq, Eq)]
pub enum Item<'a> {
    Open,
    Close,
    Space,
    Word(&'a [u8]),
    End,
}

/// A cursor over the items of one line. It stays at an item until that item is read.
pub struct Items<'a> {
    line: &'a [u8],
    at: usize,
}

impl<'a> Items<'a> {
    pub fn new(line: &'a [u8]) -> Self {
        Items { line, at: 0 }
    }

    /// The item at the cursor.
    pub fn peek(&self) -> Item<'a> {
        let rest = &self.line[self.at..];
        match rest.first() {
            None => Item::End,
            Some(b'(') => Item::Open,
            Some(b')') => Item::Close,
            Some(b' ') => Item::Space,
            Some(_) => {
                let length = rest.iter().position(|b| matches!(b, b'(' | b')' | b' ')).unwrap_or(rest.len());
                Item::Word(&rest[..length])
            }
        }
    }

    /// A fault at the cursor.
    pub fn fault<T>(&self) -> Result<T, Place> {
        Err(Place(self.at + 1))
    }

    pub fn open(&mut self) -> Result<(), Place> {
        self.one(Item::Open)
    }

    pub fn close(&mut self) -> Result<(), Place> {
        self.one(Item::Close)
    }

    pub fn space(&mut self) -> Result<(), Place> {
        self.one(Item::Space)
    }

    /// Nothing more may stand in the line.
    pub fn end(&self) -> Result<(), Place> {
        if self.peek() == Item::End {
            Ok(())
        } else {
            self.fault()
        }
    }

    /// Reads a word that `known` knows. Any other item, and any other word, is a fault at its first byte.
    pub fn word<T>(&mut self, known: impl Fn(&[u8]) -> Option<T>) -> Result<T, Place> {
        if let Item::Word(word) = self.peek() {
            if let Some(meaning) = known(word) {
                self.at += word.len();
                return Ok(meaning);
            }
        }
        self.fault()
    }

    pub fn number(&mut self) -> Result<u32, Place> {
        self.word(number)
    }

    /// A space and then a number: the usual field.
    pub fn field(&mut self) -> Result<u32, Place> {
        self.space()?;
        self.number()
    }

    /// Reads an item of one byte.
    fn one(&mut self, due: Item) -> Result<(), Place> {
        if self.peek() != due {
            return self.fault();
        }
        self.at += 1;
        Ok(())
    }
}

/// One to seven digits without a needless leading zero.
pub fn number(word: &[u8]) -> Option<u32> {
    let fits = (1..=7).contains(&word.len()) && word.iter().all(u8::is_ascii_digit);
    if !fits || (word[0] == b'0' && word.len() > 1) {
        return None;
    }
    Some(word.iter().fold(0, |sum, digit| sum * 10 + u32::from(digit - b'0')))
}

#[cfg(test)]
mod tests {
    use super::number;

    #[test]
    fn numbers() {
        assert_eq!(number(b"0"), Some(0));
        assert_eq!(number(b"9999999"), Some(9_999_999));
        for word in ["", "00", "05", "10000000", "5x", "-1", "+1"] {
            assert_eq!(number(word.as_bytes()), None, "{word}");
        }
    }
}
