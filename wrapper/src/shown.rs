//! Values as text.

use crate::Value;
use std::fmt::{self, Display, Formatter, Write};

impl Display for Value<'_> {
    fn fmt(&self, f: &mut Formatter<'_>) -> fmt::Result {
        match self {
            Value::Null => f.write_str("NULL"),
            Value::Integer(v) => write!(f, "{v}"),
            Value::Real(x) => real(*x, f),
            Value::Text(text) => quoted(text.as_bytes(), f),
            Value::TextBytes(bytes) => quoted(bytes, f),
            Value::Blob(bytes) => {
                f.write_str("x'")?;
                hex(bytes, "", f)?;
                f.write_char('\'')
            }
        }
    }
}

/// The fewest digits that read back as the same number, with a point or an exponent always.
fn real(x: f64, f: &mut Formatter<'_>) -> fmt::Result {
    if !x.is_finite() {
        return write!(f, "{x}");
    }
    let (digits, text) = (0..17)
        .map(|digits| (digits as i32, format!("{x:.digits$e}")))
        .find(|(_, text)| text.parse() == Ok(x))
        .expect("seventeen digits read back");
    let exponent = text.split_once('e').map(|(_, exponent)| exponent.parse());
    match exponent {
        Some(Ok(exponent @ -5..=15)) => write!(f, "{x:.*}", 1.max(digits - exponent) as usize),
        _ => f.write_str(&text),
    }
}

/// In quotes; what is not UTF-8, and control characters, as the hexadecimal digits of their bytes.
fn quoted(bytes: &[u8], f: &mut Formatter<'_>) -> fmt::Result {
    f.write_char('"')?;
    for chunk in bytes.utf8_chunks() {
        for c in chunk.valid().chars() {
            match c {
                '"' | '\\' => write!(f, "\\{c}")?,
                c if c.is_control() => hex(c.encode_utf8(&mut [0; 4]).as_bytes(), "\\x", f)?,
                c => f.write_char(c)?,
            }
        }
        hex(chunk.invalid(), "\\x", f)?;
    }
    f.write_char('"')
}

/// Two digits for each byte, behind a mark.
fn hex(bytes: &[u8], mark: &str, f: &mut Formatter<'_>) -> fmt::Result {
    bytes.iter().try_for_each(|b| write!(f, "{mark}{b:02x}"))
}

#[cfg(test)]
mod tests {
    use super::*;

    #[test]
    fn numbers() {
        let real = |x| Value::Real(x).to_string();
        assert_eq!(Value::Null.to_string(), "NULL");
        assert_eq!(Value::Integer(i64::MIN).to_string(), "-9223372036854775808");
        assert_eq!([real(20.0), real(-0.0), real(0.1)], ["20.0", "-0.0", "0.1"]);
        assert_eq!([real(1e300), real(5e-324)], ["1e300", "5e-324"]);
        assert_eq!([real(1e15), real(1e16)], ["1000000000000000.0", "1e16"]);
        assert_eq!([real(f64::NAN), real(-f64::INFINITY)], ["NaN", "-inf"]);
    }

    #[test]
    fn texts_and_blobs() {
        assert_eq!(Value::Text("é \"\\\n").to_string(), r#""é \"\\\x0a""#);
        assert_eq!(Value::TextBytes(b"\xffA\xc3").to_string(), r#""\xffA\xc3""#);
        assert_eq!(Value::Blob(&[]).to_string(), "x''");
        assert_eq!(Value::Blob(&[0, 0xab]).to_string(), "x'00ab'");
    }
}
