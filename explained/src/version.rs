//! What made an output, and from which list: version, engine, and a hash of the list's bytes.

pub const VERSION: &str = env!("CARGO_PKG_VERSION");

/// Whose lines a run gives, in two words.
pub fn engine(quick: bool) -> &'static str {
    match quick {
        true => "second implementation",
        false => "proved engine",
    }
}

/// FNV-1a of 64 bits, in hexadecimal digits: two lists that differ hardly ever have the same.
pub fn hash(list: &[u8]) -> String {
    let hash = list.iter().fold(0xCBF2_9CE4_8422_2325_u64, |hash, &byte| {
        (hash ^ u64::from(byte)).wrapping_mul(0x0100_0000_01B3)
    });
    format!("{hash:016x}")
}

#[cfg(test)]
mod tests {
    use super::*;

    /// The published values of FNV-1a.
    #[test]
    fn the_hash_is_fnv_1a() {
        assert_eq!(hash(b""), "cbf29ce484222325");
        assert_eq!(hash(b"a"), "af63dc4c8601ec8c");
        assert_eq!(hash(b"foobar"), "85944171f73967e8");
    }
}
