//! A table is saved in a file as an image, with a text, and loaded again. Damage is refused. A full table grows on the way. An
//! archive replaces its file as a whole: see docs/GUIDE.md.

use mouldgrey::{Opening, Rule, Table, check_image, image_text, refusal_text};
use std::{env, error, fs, io, process};

/// Writes the bytes to a file and reads them again.
fn pass_through_file(bytes: &[u8]) -> io::Result<Vec<u8>> {
    let file = env::temp_dir().join(format!("mouldgrey-image-{}", process::id()));
    fs::write(&file, bytes)?;
    let read = fs::read(&file);
    fs::remove_file(&file)?;
    println!("file: {} bytes", bytes.len());
    read
}

/// Checks an image and prints its numbers, or why it is refused.
fn print_image(bytes: &[u8]) {
    match check_image(bytes) {
        Ok(header) => println!(
            "check: {} rows, {} pending words, capacity {}",
            header.rows, header.pending, header.capacity
        ),
        Err(refusal) => println!("check: {}", refusal_text(refusal.number())),
    }
}

fn main() -> Result<(), Box<dyn error::Error>> {
    let opening = Opening {
        columns: 2,
        keys: 1,
        sort: 1,
        rule: Rule::TakeNew,
        capacity: 2,
        generation: 5,
    };
    let mut small = Table::new(&opening, 64)?;
    small.stage_insert(&[7, 10])?;
    small.stage_insert(&[8, 10])?;
    small.merge()?;
    // What is staged is saved too.
    small.stage_insert(&[9, 11])?;
    let image = small.save("modem, stamp in days")?;
    println!("image: {} words", image.len() / 4);

    let mut image = pass_through_file(&image)?;
    print_image(&image);
    println!("text: {}", String::from_utf8(image_text(&image)?)?);

    // One bit of a cell is changed, and changed back.
    image[80] ^= 1;
    print_image(&image);
    image[80] ^= 1;
    // A word is missing.
    print_image(&image[..image.len() - 4]);

    // The table is full: it is loaded with a larger capacity.
    let mut large = Table::load_with_capacity(&image, 4, 64)?;
    large.merge()?;
    for row in &large {
        println!("row {}: {} {}", row.id, row.cells[0], row.cells[1]);
    }
    Ok(())
}
