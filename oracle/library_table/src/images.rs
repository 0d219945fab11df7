//! A table that is saved as an image and read into other stores.

use crate::stores::Stores;
use crate::{Header, UNWRITTEN};
use calls::Lengths;
use mouldgrey::{Refusal, lent};

/// Other stores of the lengths lent with the table of these, or the refusal. Beside that: nothing else is written, a check of the image
/// gives the header, and its text is the one given.
pub fn reloaded(stores: &Stores, lent: &Lengths, capacity: u32) -> Result<Stores, Refusal> {
    let text = text(&stores.header);
    let image = image(stores, &text)?;
    assert_eq!(lent::check_image(&image), Ok(stores.header), "a check");
    assert_eq!(text_of(&image), Ok(text), "another text");
    let mut other = Stores::default();
    other.lend(lent);
    let read = lent::read_image(
        &image,
        capacity,
        &mut other.header,
        &mut other.rows[..lent.rows],
        &mut other.keys[..lent.keys],
        &mut other.sorts[..lent.sort_entries],
        &mut other.pending[..lent.pending],
    );
    let h = &other.header;
    let pairs = 2 * h.capacity as usize;
    let rows = h.rows as usize * h.columns as usize;
    let sorts = 2 * h.entries as usize;
    let used = match read {
        Ok(()) => [rows, pairs, sorts, h.pending as usize],
        Err(_) => [0; 4],
    };
    assert!(
        read.is_ok() || *h == Header::default(),
        "a refusal has changed the header"
    );
    let all = [&other.rows, &other.keys, &other.sorts, &other.pending];
    for (store, used) in all.into_iter().zip(used) {
        assert!(store[used..].iter().all(|&word| word == UNWRITTEN));
    }
    read.map(|()| other)
}

/// A text for a table: its bytes and its length differ from table to table.
fn text(header: &Header) -> Vec<u8> {
    let length = header.rows % 70 + header.generation % 5;
    (0..length).map(|place| (place * 37) as u8).collect()
}

fn image(stores: &Stores, text: &[u8]) -> Result<Vec<u32>, Refusal> {
    let s = stores;
    let size = lent::image_size(&s.header, text.len())?;
    let mut image = vec![UNWRITTEN; size + 1];
    let (words, behind) = image.split_at_mut(size);
    let written = lent::write_image(&s.header, &s.rows, &s.sorts, &s.pending, text, words);
    assert_eq!((written, behind), (Ok(size), &mut [UNWRITTEN][..]));
    image.truncate(size);
    Ok(image)
}

fn text_of(image: &[u32]) -> Result<Vec<u8>, Refusal> {
    let mut text = vec![0; mouldgrey::LONGEST_TEXT];
    let length = lent::read_image_text(image, &mut text)?;
    text.truncate(length);
    Ok(text)
}
