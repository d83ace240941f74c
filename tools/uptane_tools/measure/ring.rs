//! Calls of ring's Ed25519, to be measured beside those of `ed25519_steps` and `ed25519_speed`: `ring WORD N` makes N of them, by the
//! word public, sign or verify; by another it makes none.
//!
//! Debian's librust-ring-dev, 0.16.20, is built by cargo (rustc 1.95, release) with `ring = "0.16"` and /usr/share/cargo/registry in the
//! place of crates.io. A call's instructions are (c(300) - c(100)) / 200, where callgrind counts c(N); its microseconds are the least
//! processor time of five runs of 20,000, without that of a run by another word.
use ring::signature::{Ed25519KeyPair, KeyPair, UnparsedPublicKey, ED25519};

fn main() {
    let words: Vec<String> = std::env::args().collect();
    let count: u32 = words[2].parse().unwrap();
    let seed: Vec<u8> = (0..32).map(|x| x * 7 + 1).collect();
    let pair = || Ed25519KeyPair::from_seed_unchecked(&seed).unwrap();
    let (key, message) = (pair(), b"a message of 32 bytes, as any is");
    let signature = key.sign(message);
    let public = UnparsedPublicKey::new(&ED25519, key.public_key().as_ref().to_vec());
    let mut sum = 0u32;
    for i in 0..count {
        let mut other = *message;
        other[0] = i as u8;
        sum += match words[1].as_str() {
            "public" => pair().public_key().as_ref()[0] as u32,
            "sign" => key.sign(&other).as_ref()[0] as u32,
            "verify" => public.verify(message, signature.as_ref()).is_ok() as u32,
            _ => 0,
        };
    }
    println!("{sum}");
}
