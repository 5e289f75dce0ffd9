//! Bytes and numbers as words of a line of text, and back; amounts of dollars as mills.

/// Two digits a byte; a dash for none.
pub fn hexadecimal(bytes: &[u8]) -> String {
    if bytes.is_empty() {
        return "-".to_string();
    }
    bytes.iter().map(|byte| format!("{byte:02x}")).collect()
}

pub fn bytes(word: &str) -> Result<Vec<u8>, String> {
    if word == "-" {
        return Ok(Vec::new());
    }
    let digits: Option<Vec<u32>> = word.chars().map(|c| c.to_digit(16)).collect();
    let digits = digits.filter(|digits| digits.len() % 2 == 0);
    let digits = digits.ok_or_else(|| format!("bytes {word}"))?;
    Ok(digits
        .chunks(2)
        .map(|two| (two[0] * 16 + two[1]) as u8)
        .collect())
}

/// With commas between them; a dash for none.
pub fn list(numbers: &[u64]) -> String {
    if numbers.is_empty() {
        return "-".to_string();
    }
    let words: Vec<String> = numbers.iter().map(u64::to_string).collect();
    words.join(",")
}

pub fn numbers(word: &str) -> Result<Vec<u64>, String> {
    if word == "-" {
        return Ok(Vec::new());
    }
    let numbers: Result<Vec<u64>, _> = word.split(',').map(str::parse).collect();
    numbers.map_err(|_| format!("numbers {word}"))
}

/// Just so many numbers.
pub fn just<const N: usize>(word: &str) -> Result<[u64; N], String> {
    let numbers = numbers(word)?;
    numbers
        .try_into()
        .map_err(|_| format!("not {N} numbers: {word}"))
}

/// Digits alone.
pub fn whole(text: &str) -> Option<u64> {
    let digits = text.bytes().all(|byte| byte.is_ascii_digit());
    text.parse().ok().filter(|_| digits)
}

/// Dollars without a sign: digits, then none or a point and one to three more.
pub fn mills(text: &str) -> Option<u64> {
    let (dollars, decimals) = text.split_once('.').unwrap_or((text, "0"));
    let right = whole(dollars).and(whole(decimals)).is_some() && decimals.len() <= 3;
    whole(&format!("{dollars}{decimals:0<3}")).filter(|_| right)
}
