//! Two ways to get lines for an input, compared.

/// How many inputs were compared, or the first that gets other lines the second way.
pub fn compare(
    inputs: impl IntoIterator<Item = Vec<u8>>,
    one: impl Fn(&[u8]) -> Vec<u8>,
    other: impl Fn(&[u8]) -> Vec<u8>,
) -> Result<usize, Vec<u8>> {
    let mut compared = 0;
    for input in inputs {
        if one(&input) != other(&input) {
            return Err(input);
        }
        compared += 1;
    }
    Ok(compared)
}
