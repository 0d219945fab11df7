//! Images: a table as the bytes of a file, over stores and outputs of the right lengths.

use crate::{Error, Header, Refusal, Table, lent};

/// The most bytes of the text in an image.
pub const LONGEST_TEXT: usize = 4096;

/// The words of a file, lowest byte first. A length that is no multiple of four is that of no image.
fn words_of(bytes: &[u8]) -> Result<Vec<u32>, Refusal> {
    let words = bytes.chunks_exact(4);
    if !words.remainder().is_empty() {
        return Err(Refusal::NoImage);
    }
    let word = |bytes: &[u8]| u32::from_le_bytes(bytes.try_into().expect("four bytes"));
    Ok(words.map(word).collect())
}

fn bytes_of(words: &[u32]) -> Vec<u8> {
    words.iter().flat_map(|word| word.to_le_bytes()).collect()
}

/// The header of the table whose image these bytes are. Refused by 19, bytes that are no image, and 20, an image of a table that
/// is not sound. Uses about 600 KiB of stack.
///
/// ```
/// # use mouldgrey::{Opening, Refusal, Rule, Table, check_image};
/// # fn main() -> Result<(), mouldgrey::Error> {
/// # let opening = Opening { columns: 2, keys: 1, sort: 1, rule: Rule::KeepOld, capacity: 10, generation: 0 };
/// # let table = Table::new(&opening, 100)?;
/// let mut bytes = table.save("")?;
/// assert_eq!(check_image(&bytes)?.capacity, 10);
/// bytes[20] ^= 1;
/// assert_eq!(check_image(&bytes), Err(Refusal::NoImage));
/// # Ok(())
/// # }
/// ```
pub fn check_image(bytes: &[u8]) -> Result<Header, Refusal> {
    lent::check_image(&words_of(bytes)?)
}

/// The text of an image. The table need not be sound. Refused by 19.
///
/// ```
/// # use mouldgrey::{Opening, Rule, Table, image_text};
/// # fn main() -> Result<(), mouldgrey::Error> {
/// # let opening = Opening { columns: 2, keys: 1, sort: 1, rule: Rule::KeepOld, capacity: 10, generation: 0 };
/// # let table = Table::new(&opening, 100)?;
/// let bytes = table.save("modem, stamp in days since 2000-01-01")?;
/// assert_eq!(image_text(&bytes)?, b"modem, stamp in days since 2000-01-01");
/// # Ok(())
/// # }
/// ```
pub fn image_text(bytes: &[u8]) -> Result<Vec<u8>, Refusal> {
    let mut text = vec![0; LONGEST_TEXT];
    let length = lent::read_image_text(&words_of(bytes)?, &mut text)?;
    text.truncate(length);
    Ok(text)
}

impl Table {
    /// The table as the bytes of a file, its image, with a text of at most [`LONGEST_TEXT`] bytes for its readers. Staged records
    /// are in it, the indexes of refreshes are not. Refused by 21, a longer text.
    ///
    /// ```
    /// # use mouldgrey::{Error, Opening, Refusal, Rule, Table};
    /// # fn main() -> Result<(), Error> {
    /// # let opening = Opening { columns: 2, keys: 1, sort: 1, rule: Rule::KeepOld, capacity: 10, generation: 0 };
    /// # let mut table = Table::new(&opening, 100)?;
    /// let bytes = table.save("modem, stamp")?;
    /// assert_eq!(bytes[..4], *b"MGTB");
    /// assert_eq!(table.save([0; 4097]), Err(Error::Refused(Refusal::TextTooLong)));
    /// # Ok(())
    /// # }
    /// ```
    pub fn save(&self, text: impl AsRef<[u8]>) -> Result<Vec<u8>, Error> {
        let s = self.stores();
        let text = text.as_ref();
        let mut image = vec![0; lent::image_size(&s.header, text.len())?];
        lent::write_image(&s.header, &s.rows, &s.sorts, &s.pending, text, &mut image)?;
        Ok(bytes_of(&image))
    }

    /// The table whose image these bytes are, with a pending store of this many words, or of as many as are in use if that is
    /// more. Refused by 19, bytes that are no image, and 20, an image of a table that is not sound. Uses about 600 KiB of stack.
    ///
    /// ```
    /// # use mouldgrey::{Opening, Rule, Table};
    /// # fn main() -> Result<(), mouldgrey::Error> {
    /// # let opening = Opening { columns: 2, keys: 1, sort: 1, rule: Rule::KeepOld, capacity: 10, generation: 0 };
    /// # let mut table = Table::new(&opening, 100)?;
    /// table.stage_insert(&[7, 1])?;
    /// table.merge()?;
    /// let bytes = table.save("")?;
    /// let table = Table::load(&bytes, 100)?;
    /// assert_eq!(table.get_row_column(&[7], 1)?, Some(1));
    /// # Ok(())
    /// # }
    /// ```
    pub fn load(bytes: &[u8], pending_words: usize) -> Result<Table, Error> {
        Table::load_with_capacity(bytes, 0, pending_words)
    }

    /// As [`load`](Table::load), with another capacity: a larger one is how a full table grows. With 0 it is the image's own. Row
    /// numbers, generation and staged records stay; the indexes of refreshes must be new. Refused by 19, 20 and 1, a capacity above
    /// 65,536 or below the row count.
    ///
    /// ```
    /// # use mouldgrey::{Opening, Rule, Table};
    /// # fn main() -> Result<(), mouldgrey::Error> {
    /// # let opening = Opening { columns: 2, keys: 1, sort: 1, rule: Rule::KeepOld, capacity: 1, generation: 0 };
    /// # let mut table = Table::new(&opening, 100)?;
    /// table.stage_insert(&[7, 1])?;
    /// table.merge()?;
    /// let mut larger = Table::load_with_capacity(&table.save("")?, 20, 100)?;
    /// larger.stage_insert(&[8, 1])?;
    /// larger.merge()?;
    /// assert_eq!(larger.rows().count(), 2);
    /// # Ok(())
    /// # }
    /// ```
    pub fn load_with_capacity(
        bytes: &[u8],
        capacity: u32,
        pending_words: usize,
    ) -> Result<Table, Error> {
        let image = words_of(bytes)?;
        let mut header = lent::check_image(&image)?;
        if capacity != 0 {
            header.capacity = capacity;
        }
        // The stores are made only for numbers within their bounds.
        lent::version(&header)?;
        let mut table = Table::without_stores();
        table.reserve_pending(pending_words.max(header.pending as usize));
        table.read_image(&image, &header)?;
        Ok(table)
    }
}
