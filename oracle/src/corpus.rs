//! Real files in parts, to be changed as the made-up ones are.

use crate::support::images::Draft;

/// Reads numbers and strings one after another; the images are accepted ones.
struct Parts<'a>(&'a [u8]);

impl<'a> Parts<'a> {
    fn take(&mut self, length: usize) -> &'a [u8] {
        let (taken, rest) = self.0.split_at(length);
        self.0 = rest;
        taken
    }

    fn uint32(&mut self) -> u32 {
        u32::from_be_bytes(self.take(4).try_into().expect("four bytes"))
    }

    fn string(&mut self) -> Vec<u8> {
        let length = self.uint32() as usize;
        self.take(length).to_vec()
    }

    fn strings(&mut self, count: usize) -> Vec<Vec<u8>> {
        (0..count).map(|_| self.string()).collect()
    }
}

/// The parts of an accepted image.
pub fn draft_of(image: &[u8]) -> Draft {
    let mut parts = Parts(image);
    let magic = parts.take(15).to_vec();
    let [cipher, kdf, options] = [parts.string(), parts.string(), parts.string()];
    let count = parts.uint32();
    let blob = strings_in(&parts.string());
    let mut draft = Draft {
        magic,
        options: if options.is_empty() { None } else { Some(salt_and_rounds(&options)) },
        options_rest: Vec::new(),
        count,
        sealed: None,
        checkints: [0; 2],
        pair: Vec::new(),
        comment: Vec::new(),
        padding: Vec::new(),
        rest: Vec::new(),
        blob_rest: Vec::new(),
        cipher,
        kdf,
        blob,
    };
    let section = parts.string();
    let private = if draft.blob[0] == b"ssh-rsa" { 4 } else { 1 };
    match draft.cipher == b"none" {
        true => plain(&mut draft, private, Parts(&section)),
        false => sealed(&mut draft, private, section, parts.0),
    }
    draft
}

fn strings_in(bytes: &[u8]) -> Vec<Vec<u8>> {
    let mut parts = Parts(bytes);
    let mut strings = Vec::new();
    while !parts.0.is_empty() {
        strings.push(parts.string());
    }
    strings
}

fn salt_and_rounds(options: &[u8]) -> (Vec<u8>, u32) {
    let mut parts = Parts(options);
    (parts.string(), parts.uint32())
}

/// After the public strings a section has one private string, of an RSA key four.
fn plain(draft: &mut Draft, private: usize, mut section: Parts) {
    draft.checkints = [section.uint32(), section.uint32()];
    draft.pair = section.strings(draft.blob.len() + private);
    draft.comment = section.string();
    draft.padding = section.0.to_vec();
}

/// The keypair, which nobody can read, is made up, so that a plain image can be made of it.
fn sealed(draft: &mut Draft, private: usize, ciphertext: Vec<u8>, tag: &[u8]) {
    draft.pair = draft.blob.clone();
    draft.pair.extend(vec![vec![1; 40]; private]);
    draft.sealed = Some((ciphertext, tag.to_vec()));
}
