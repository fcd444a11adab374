//! A refusal for each condition of the rules, from a list: its number, its count, its place and the words for its field.

use saltorchard::Image;

/// The lines of the list: a condition each.
const CONDITIONS: usize = 93;

fn list() -> String {
    let path = concat!(env!("CARGO_MANIFEST_DIR"), "/tests/data/places");
    std::fs::read_to_string(path).unwrap_or_else(|error| panic!("{}: {}", path, error))
}

/// The image of a line: in hex, or `N zeros`.
fn image(text: &str) -> Vec<u8> {
    if let Some(count) = text.strip_suffix(" zeros") {
        return vec![0; count.parse().expect("a number of zeros")];
    }
    assert!(text.len() % 2 == 0 && text.is_ascii(), "hex has two digits a byte: {}", text);
    let byte = |place| u8::from_str_radix(&text[place..place + 2], 16).expect("hex");
    (0..text.len()).step_by(2).map(byte).collect()
}

/// What the crate says of a line's image, as the line says it.
fn told(bytes: &[u8]) -> String {
    match Image::read(bytes) {
        Ok(_) => "accepted".into(),
        Err(refusal) => {
            let (number, count, place) = (refusal.number(), refusal.count(), refusal.place());
            format!("{}|{}|{}|{}", number, count, place, refusal.field())
        }
    }
}

#[test]
fn each_condition() {
    let list = list();
    for line in list.lines() {
        let (id, rest) = line.split_once('|').expect("an ID first");
        let (right, bytes) = rest.rsplit_once('|').expect("an image last");
        assert_eq!(told(&image(bytes)), right, "{}", id);
    }
    let lines = list.lines().count();
    println!("places: {} conditions", lines);
    assert_eq!(lines, CONDITIONS);
}
