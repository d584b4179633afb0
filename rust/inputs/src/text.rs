//! Inputs and answers as lines of text: words parted by single spaces, bytes as two hexadecimal digits with `/` after every eight bytes, 16-bit words as
//! four with `/` after every four words, `-` for nothing.

use crate::{Answer, Input};

pub fn bytes(bytes: &[u8]) -> String {
    parted(bytes.iter().map(|byte| format!("{:02x}", byte)), 8)
}

pub fn words(words: &[u16]) -> String {
    parted(words.iter().map(|word| format!("{:04x}", word)), 4)
}

/// The mark stands between groups, so that none ends the text.
fn parted(digits: impl Iterator<Item = String>, group: usize) -> String {
    let mut text = String::new();
    for (place, digits) in digits.enumerate() {
        if place > 0 && place % group == 0 {
            text.push('/');
        }
        text.push_str(&digits);
    }
    if text.is_empty() {
        text.push('-');
    }
    text
}

/// The called function's word, the case's name, and what is put in.
pub fn case(name: &str, input: &Input) -> String {
    match input {
        Input::Read { block } => format!("read {} {}", name, bytes(block)),
        Input::Check { block, binding } => {
            format!("check {} {} {}", name, bytes(block), bytes(binding))
        }
        Input::Bind { block, method, out } => {
            format!("bind {} {} {} {}", name, bytes(block), method, out.len())
        }
        Input::RunBlock {
            block,
            incoming,
            outgoing,
        } => format!(
            "block {} {} {} {}",
            name,
            bytes(block),
            words(incoming),
            outgoing.len()
        ),
        Input::RunDatapath {
            block,
            binding,
            incoming,
            outgoing,
            registers,
        } => format!(
            "path {} {} {} {} {} {}",
            name,
            bytes(block),
            bytes(binding),
            words(incoming),
            outgoing.len(),
            words(registers)
        ),
    }
}

/// The fields of the answer in decimal, then what was written.
pub fn answer(input: &Input, answer: &Answer) -> String {
    let fields = |places: &[usize]| -> String {
        let decimal = places.iter().map(|&place| answer.byte(place).to_string());
        decimal.collect::<Vec<_>>().join(" ")
    };
    match input {
        Input::Read { .. } => fields(&[0, 1, 2, 3, 4]),
        Input::Check { .. } => fields(&[0, 1, 2, 3, 4, 5]),
        Input::Bind { .. } => {
            let written = answer.bytes_written();
            let binding = &answer.out[..written.into()];
            format!("{} {} {}", fields(&[0, 1, 2]), written, bytes(binding))
        }
        Input::RunBlock { .. } => format!("{} {}", fields(&[0, 1, 2, 4]), sent(answer)),
        Input::RunDatapath { .. } => format!(
            "{} {} {}",
            fields(&[0, 1, 2, 4]),
            sent(answer),
            words(&answer.registers)
        ),
    }
}

fn sent(answer: &Answer) -> String {
    words(&answer.outgoing[..answer.byte(4).into()])
}
