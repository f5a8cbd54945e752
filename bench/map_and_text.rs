//! The same in plain Rust, with std's ordered map; `make` prints the text: 100,000 puts in a mixed order.
use std::collections::BTreeMap;
use std::io::{Read, Write};

const ROUNDS: u32 = 10;
const PUTS: u32 = 100_000;

struct Put {
    prefix: Vec<u8>,
    key: Vec<u8>,
    value: Vec<u8>,
}

fn make() -> Vec<u8> {
    let mut text = vec![1];
    text.extend(PUTS.to_le_bytes());
    for i in 0..PUTS {
        let key = format!("key{:06}", i * 7919 % PUTS);
        text.extend([1, 2, b'k', b'v', key.len() as u8]);
        text.extend(key.as_bytes());
        text.extend(20u32.to_le_bytes());
        text.extend([b'x'; 20]);
    }
    text
}

fn split<'a>(text: &mut &'a [u8], n: usize) -> Option<&'a [u8]> {
    let front = text.get(..n)?;
    *text = &text[n..];
    Some(front)
}

fn byte(text: &mut &[u8]) -> Option<u8> {
    Some(split(text, 1)?[0])
}

fn number(text: &mut &[u8]) -> Option<u32> {
    Some(u32::from_le_bytes(split(text, 4)?.try_into().ok()?))
}

fn name(text: &mut &[u8], most: u8) -> Option<Vec<u8>> {
    let n = byte(text)?;
    let bytes = split(text, usize::from(n))?;
    let fits = 0 < n && n <= most && bytes.iter().all(u8::is_ascii_graphic);
    fits.then(|| bytes.to_vec())
}

fn put(text: &mut &[u8]) -> Option<Put> {
    if byte(text)? != 1 {
        return None;
    }
    let prefix = name(text, 32)?;
    let key = name(text, 255)?;
    let n = number(text)?;
    let value = split(text, n as usize)?.to_vec();
    Some(Put { prefix, key, value })
}

fn decode(mut text: &[u8]) -> Option<Vec<Put>> {
    if byte(&mut text)? != 1 {
        return None;
    }
    let count = number(&mut text)?;
    let puts = (0..count).map(|_| put(&mut text)).collect::<Option<Vec<_>>>()?;
    text.is_empty().then_some(puts)
}

fn apply(puts: &[Put]) -> BTreeMap<(Vec<u8>, Vec<u8>), Vec<u8>> {
    let mut map = BTreeMap::new();
    for put in puts {
        map.insert((put.prefix.clone(), put.key.clone()), put.value.clone());
    }
    map
}

fn main() {
    let word = std::env::args().nth(1).expect("a word");
    if word == "make" {
        std::io::stdout().write_all(&make()).expect("a write");
        return;
    }
    let mut text = Vec::new();
    std::io::stdin().read_to_end(&mut text).expect("a read");
    if word == "decode" {
        for _ in 0..ROUNDS {
            assert_eq!(std::hint::black_box(decode(&text)).expect("a transaction").len(), PUTS as usize);
        }
        return;
    }
    let puts = decode(&text).expect("a transaction");
    for _ in 0..ROUNDS {
        assert_eq!(std::hint::black_box(apply(&puts)).len(), PUTS as usize);
    }
}
