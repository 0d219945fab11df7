//! Images of tables, written from the comments of their definition (crates/image_spec); words in quotes are its own. An image is "one
//! sequence of 32-bit words that stands alone, for a file of bytes, lowest byte of each word first".

use crate::Reference;
use crate::refusals::{refuse, test_header, test_header_and_pending, test_image_rows, test_stores};
use crate::sound::is_contents_sound;
use calls::{HEADER_WORDS, Header, Held, Lengths};

/// "MGTB" as bytes.
const MAGIC: u32 = u32::from_le_bytes(*b"MGTB");

/// "The format's number."
const FORMAT: u32 = 1;

/// "The text has at most 4,096 bytes."
pub const LONGEST_TEXT: usize = 4_096;

/// "What an image holds: a header, a text for its readers, in bytes, and the words of each store that are in use."
#[derive(Clone, Debug, PartialEq, Eq)]
pub struct Image {
    pub header: Header,
    pub text: Vec<u8>,
    pub rows: Vec<u32>,
    pub sorts: Vec<u32>,
    pub pending: Vec<u32>,
}

/// The CRC-32 of the bytes of these words, bit by bit.
pub fn crc32(words: &[u32]) -> u32 {
    const POLYNOMIAL: u32 = 0xedb8_8320;
    let bytes = words.iter().flat_map(|word| word.to_le_bytes());
    let after_bit = |crc: u32| (crc >> 1) ^ (POLYNOMIAL * (crc & 1));
    let after_byte = |crc: u32, byte: u8| {
        let mixed = crc ^ u32::from(byte);
        (0..8).fold(mixed, |crc, _| after_bit(crc))
    };
    !bytes.fold(!0, after_byte)
}

/// How many words of each store are in use: rows, sort entries, pending.
fn in_use(h: &Header) -> [usize; 3] {
    let rows = h.rows as usize * h.columns as usize;
    [rows, 2 * h.entries as usize, h.pending as usize]
}

/// "How many words an image has: sixteen besides the text and the words in use."
pub fn image_length(h: &Header, text: usize) -> usize {
    16 + text.div_ceil(4) + in_use(h).iter().sum::<usize>()
}

impl Image {
    /// "The image of a table: the words of its stores that are in use, with a text." The stores are long enough.
    pub fn of(held: &Held, text: &[u8]) -> Image {
        let [rows, sorts, pending] = in_use(&held.header);
        Image {
            header: held.header,
            text: text.to_vec(),
            rows: held.rows[..rows].to_vec(),
            sorts: held.sorts[..sorts].to_vec(),
            pending: held.pending[..pending].to_vec(),
        }
    }

    /// "The words before the checksum" and "the CRC-32 of the bytes before it".
    pub fn words(&self) -> Vec<u32> {
        let mut words = vec![MAGIC, FORMAT];
        words.extend(self.header.words());
        words.push(self.text.len() as u32);
        words.extend(packed(&self.text));
        for store in [&self.rows, &self.sorts, &self.pending] {
            words.extend(store);
        }
        words.push(crc32(&words));
        words
    }

    /// "The image that words are, if they are one."
    pub fn read(words: &[u32]) -> Option<Image> {
        let mut rest = words;
        let mut take = |count: usize| {
            let (taken, behind) = rest.split_at_checked(count)?;
            rest = behind;
            Some(taken)
        };
        let magic_and_format = take(2)?;
        let header = read_header(take(HEADER_WORDS)?)?;
        let length = take(1)?[0] as usize;
        if magic_and_format != [MAGIC, FORMAT] || length > LONGEST_TEXT {
            return None;
        }
        let text = unpacked(take(length.div_ceil(4))?, length)?;
        let [rows, sorts, pending] = in_use(&header);
        let image = Image {
            header,
            text,
            rows: take(rows)?.to_vec(),
            sorts: take(sorts)?.to_vec(),
            pending: take(pending)?.to_vec(),
        };
        let (last, body) = words.split_last()?;
        (rest.len() == 1 && crc32(body) == *last).then_some(image)
    }

    /// "An image of a sound table: all that soundness asks of a header, rows, sort entries and pending records."
    pub fn is_sound(&self) -> bool {
        is_contents_sound(&self.held())
    }

    /// Its stores. It has no key store.
    pub fn held(&self) -> Held<'_> {
        Held {
            header: self.header,
            rows: &self.rows,
            keys: &[],
            sorts: &self.sorts,
            pending: &self.pending,
        }
    }
}

/// "Bytes as words, four in each, lowest first. The last word is filled up with zeros."
fn packed(text: &[u8]) -> impl Iterator<Item = u32> + '_ {
    text.chunks(4).map(|bytes| {
        let mut word = [0; 4];
        word[..bytes.len()].copy_from_slice(bytes);
        u32::from_le_bytes(word)
    })
}

/// The text of this length, if the bytes behind it are zero.
fn unpacked(words: &[u32], length: usize) -> Option<Vec<u8>> {
    let mut text: Vec<u8> = words.iter().flat_map(|word| word.to_le_bytes()).collect();
    let fill = text.split_off(length);
    fill.iter().all(|&byte| byte == 0).then_some(text)
}

/// A header within its bounds, as it is encoded: "0 and 0, or 1 and the value" at its end.
fn read_header(words: &[u32]) -> Option<Header> {
    let words: &[u32; HEADER_WORDS] = words.try_into().ok()?;
    let header = Header::from_words(words);
    let is_encoded = header.words() == *words;
    (is_encoded && test_header(&header).is_ok()).then_some(header)
}

/// *Image size*: 1, "21, a text of more than 4,096 bytes".
pub fn test_image_size(h: &Header, text: usize) -> Result<(), u32> {
    test_header(h)?;
    refuse(21, text > LONGEST_TEXT)
}

/// *Write image*: 1, 2, 21; "2 again for an output shorter than the image".
pub fn test_write_image(h: &Header, lent: &Lengths, text: usize, output: usize) -> Result<(), u32> {
    test_header_and_pending(h, lent)?;
    test_image_rows(&h.opening(), lent)?;
    refuse(21, text > LONGEST_TEXT)?;
    refuse(2, output < image_length(h, text))
}

/// *Check image*: "19, words that are no image; 20, an image of a table that is not sound"; else the image.
pub fn check_image(words: &[u32]) -> Result<Image, u32> {
    let image = Image::read(words).ok_or(19u32)?;
    refuse(20, !image.is_sound())?;
    Ok(image)
}

/// *Read image*: 19, 20; "1 for a capacity outside its bounds or below the row count; 2 for a store shorter than needed"; else the
/// image, with that capacity: "the image's, with another capacity unless that is 0".
pub fn read_image(words: &[u32], capacity: u32, lent: &Lengths) -> Result<Image, u32> {
    let mut image = check_image(words)?;
    if capacity != 0 {
        image.header.capacity = capacity;
    }
    test_load(&image.header, lent)?;
    Ok(image)
}

/// The refusals of the stores for a sound image: 1, 2.
fn test_load(h: &Header, lent: &Lengths) -> Result<(), u32> {
    test_header(h)?;
    test_stores(&h.opening(), lent)?;
    refuse(2, lent.pending < h.pending as usize)
}

/// *Read text*: "19; 2 for an output shorter than the text"; else the text.
pub fn read_image_text(words: &[u32], output: usize) -> Result<Vec<u8>, u32> {
    let image = Image::read(words).ok_or(19u32)?;
    refuse(2, output < image.text.len())?;
    Ok(image.text)
}

impl Reference {
    /// The table goes on in other stores, which hold the words in use and nothing else that was ever written.
    pub(crate) fn go_on_elsewhere(&mut self, lent: &Lengths, capacity: u32) -> Result<(), u32> {
        let mut header = self.header();
        test_header(&header)?;
        if capacity != 0 {
            header.capacity = capacity;
        }
        test_load(&header, lent)?;
        let [rows, sorts, pending] = in_use(&header);
        self.opening.capacity = header.capacity;
        self.stores.rows.truncate(rows);
        self.stores.sorts.truncate(sorts);
        self.stores.pending.truncate(pending);
        Ok(())
    }
}
