//! What lines are made of.

/// The bytes whose digits are put at a time.
const PART: usize = 64;

pub fn put_word(word: &str, text: &mut Vec<u8>) {
    text.extend_from_slice(word.as_bytes());
}

/// Appends a number in decimal.
pub fn put_number(number: u64, text: &mut Vec<u8>) {
    let mut digits = [0; 20];
    let mut from = digits.len();
    let mut rest = number;
    loop {
        from -= 1;
        digits[from] = b'0' + (rest % 10) as u8;
        rest /= 10;
        if rest == 0 {
            break;
        }
    }
    text.extend_from_slice(&digits[from..]);
}

pub fn put_signed(number: i64, text: &mut Vec<u8>) {
    if number < 0 {
        text.push(b'-');
    }
    put_number(number.unsigned_abs(), text);
}

fn hex_digit(half: u8) -> u8 {
    b"0123456789abcdef"[usize::from(half)]
}

/// Appends bytes as hex digits, or `-` where there are none.
pub fn put_hex(bytes: &[u8], text: &mut Vec<u8>) {
    if bytes.is_empty() {
        text.push(b'-');
    }
    for part in bytes.chunks(PART) {
        let mut digits = [[0; 2]; PART];
        for (pair, &byte) in digits.iter_mut().zip(part) {
            *pair = [hex_digit(byte >> 4), hex_digit(byte & 15)];
        }
        text.extend_from_slice(digits[..part.len()].as_flattened());
    }
}

/// Appends a word, and each number behind a space.
pub fn put_fields(word: &str, numbers: &[u64], text: &mut Vec<u8>) {
    put_word(word, text);
    for &number in numbers {
        text.push(b' ');
        put_number(number, text);
    }
}

/// Appends a line of a word, and of each number behind a space.
pub fn put_line(word: &str, numbers: &[u64], text: &mut Vec<u8>) {
    put_fields(word, numbers, text);
    text.push(b'\n');
}
