//! Prints the JSON text in a file with sorted names and no white space, without the member `signatures` of its top object.
use std::io::Write;

fn main() -> Result<(), Box<dyn std::error::Error>> {
    let name = std::env::args().nth(1).ok_or("usage: canon_rust FILE")?;
    let mut book: serde_json::Value = serde_json::from_slice(&std::fs::read(name)?)?;
    if let Some(members) = book.as_object_mut() {
        members.remove("signatures");
    }
    let mut line = serde_json::to_vec(&book)?;
    line.push(b'\n');
    std::io::stdout().write_all(&line)?;
    Ok(())
}
