//! `taglist` on a number of tags: its standard output, byte for byte.

use super::engine::start;
use crate::build::{block, Draft};
use crate::examples;
use crate::generate::tags;
use crate::model::layout::layout;
use crate::model::listing;
use crate::model::listing::capital_hex;
use crate::random::Random;
use std::io::{Read, Write};
use std::thread;

/// Runs the program on the fixed tags and on so many generated ones.
pub fn compare(program: &[String], seed: u64, count: usize) -> Result<String, String> {
    let mut random = Random::new(seed);
    let inputs: Vec<Vec<u8>> = fixed().into_iter().chain((0..count).map(|_| tags::any(&mut random))).collect();
    let mut refused = 0;
    for input in &inputs {
        let right = listing(input);
        refused += usize::from(right.starts_with("refused"));
        let got = output_of(program, input)?;
        if got != right.as_bytes() {
            let (got, right) = (String::from_utf8_lossy(&got), right.as_str());
            return Err(format!("taglist: prints {got:?} instead of {right:?} for {}", capital_hex(input)));
        }
    }
    Ok(format!("taglist: {} tags from seed {seed}, {refused} of them refused, all as the model says\n", inputs.len()))
}

/// A dozen and more tags, each refusal of reading but 2 and 14 among them.
pub fn fixed() -> Vec<Vec<u8>> {
    let plain = Draft::default();
    let mut inputs: Vec<Vec<u8>> = examples::all().map(|example| example.tag).to_vec();
    inputs.extend([vec![], vec![0; 36], vec![0x11; 36], vec![0xFF; 2048], vec![0x11; 2049], vec![0; 5000]]);
    inputs.push([&examples::b2().tag[..], b"\n"].concat());
    inputs.extend(about_the_longest());
    inputs.push(plain.clone().chain(&[&[1, 2]]).tag(36));
    inputs.push(plain.clone().chain(&[&[1, 3]]).tag(36));
    inputs.push(plain.clone().chain(&[&[1; 2013], &[255]]).tag(2048));
    inputs.push(plain.clone().chain(&[&[1, 1, 3, 100, 0]]).tag(40));
    inputs.push(plain.clone().chain(&[&block(300, &[7; 99]), &[4, 2, 0, 7]]).tag(140));
    inputs.push(plain.clone().chain(&[&block(1, &[5]), &block(2, b"a"), &block(1, &[5])]).tag(64));
    inputs.push(plain.clone().owner(b"DK").tag(36));
    inputs.push(plain.clone().owner(&[0, 0, 1]).tag(36));
    inputs.push(Draft { ordinal: 2, ..plain.clone() }.tag(32));
    inputs.push(plain.clone().item("Ærø".as_bytes()).owner(b"\0\0\x02\xE2\x82\xAC").tag(36));
    inputs.push(plain.clone().item(b"\xC0\xAF").tag(36));
    inputs.push(plain.chain(&[&block(257, &[]).repeat(671)]).tag(2048));
    let everything = super::read_cases::everything(b"ABC-1234", 30);
    inputs.push(layout(&everything, 112).expect("it fits"));
    inputs
}

/// A tag of 2,048 bytes that reads; cut by up to a page; with up to a page more behind it, of 00 and of other bytes.
fn about_the_longest() -> impl Iterator<Item = Vec<u8>> {
    let mut longest = Draft::default().chain(&[&block(300, b"longest")]).tag(2048);
    longest.extend([0, 0, 0, 0]);
    let filled = [&longest[..2048], &[1, 0x11, 1, 1]].concat();
    (2044..=2052)
        .map(move |length| longest[..length].to_vec())
        .chain((2049..=2052).map(move |length| filled[..length].to_vec()))
}

/// What the program prints for this input. It need not take all of it.
fn output_of(program: &[String], input: &[u8]) -> Result<Vec<u8>, String> {
    let mut child = start(program)?;
    let mut stdin = child.stdin.take().expect("a pipe was asked for");
    let mut stdout = child.stdout.take().expect("a pipe was asked for");
    let mut output = Vec::new();
    thread::scope(|scope| {
        scope.spawn(move || drop(stdin.write_all(input)));
        stdout.read_to_end(&mut output)
    })
    .map_err(|error| format!("taglist: its output cannot be read: {error}"))?;
    let status = child.wait().map_err(|error| format!("taglist: it cannot be waited for: {error}"))?;
    match status.code() {
        Some(_) => Ok(output),
        None => Err(format!("taglist: stopped ({status}) at {}", capital_hex(input))),
    }
}
