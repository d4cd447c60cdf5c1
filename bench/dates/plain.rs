//! The same in plain Rust: the date by the usual arithmetic of eras of 400 years that begin in March, the text in a buffer on the
//! stack, and one copy of it.
const LONG: usize = 60_000;

fn date(day: i64) -> (u32, u32, u32) {
    let since_march = day + 719_468;
    let (era, of_era) = (since_march.div_euclid(146_097), since_march.rem_euclid(146_097));
    let year = (of_era - of_era / 1_460 + of_era / 36_524 - of_era / 146_096) / 365;
    let of_year = of_era - (365 * year + year / 4 - year / 100);
    let month = (5 * of_year + 2) / 153;
    let of_month = of_year - (153 * month + 2) / 5 + 1;
    let month = if month < 10 { month + 3 } else { month - 9 };
    ((year + era * 400 + i64::from(month <= 2)) as u32, month as u32, of_month as u32)
}

fn digit(n: u32) -> u8 {
    b'0' + (n % 10) as u8
}

fn date_digits(day: i64) -> [u8; 10] {
    let (y, m, d) = date(day);
    [digit(y / 1000), digit(y / 100), digit(y / 10), digit(y), b'-', digit(m / 10), digit(m), b'-', digit(d / 10), digit(d)]
}

fn push_date(out: &mut Vec<u8>, day: i64) {
    if !(-719_528..=2_932_896).contains(&day) {
        return out.extend_from_slice(b"null");
    }
    let mut text = [b'"'; 12];
    text[1..11].copy_from_slice(&date_digits(day));
    out.extend_from_slice(&text);
}

fn push_timestamp(out: &mut Vec<u8>, offset: Option<i16>, value: i64) {
    let (seconds, fraction) = (value.div_euclid(1_000_000), value.rem_euclid(1_000_000) as u32);
    let local = seconds + i64::from(offset.unwrap_or(0)) * 60;
    if !(-62_167_219_200..=253_402_300_799).contains(&local) {
        return out.extend_from_slice(b"null");
    }
    let (day, second) = (local.div_euclid(86_400), local.rem_euclid(86_400) as u32);
    let mut text = [b'"'; 34];
    text[1..11].copy_from_slice(&date_digits(day));
    text[11] = if offset.is_some() { b'T' } else { b' ' };
    let (h, m, s) = (second / 3_600, second / 60 % 60, second % 60);
    text[12..20].copy_from_slice(&[digit(h / 10), digit(h), b':', digit(m / 10), digit(m), b':', digit(s / 10), digit(s)]);
    let mut end = 20;
    if fraction != 0 {
        text[20] = b'.';
        let digits = if fraction % 1_000 == 0 { 3 } else { 6 };
        let mut unit = 100_000;
        for k in 0..digits {
            text[21 + k] = digit(fraction / unit);
            unit /= 10;
        }
        end = 21 + digits;
    }
    if let Some(minutes) = offset {
        let (h, m) = (u32::from(minutes.unsigned_abs()) / 60, u32::from(minutes.unsigned_abs()) % 60);
        let sign = if minutes < 0 { b'-' } else { b'+' };
        text[end..end + 6].copy_from_slice(&[sign, digit(h / 10), digit(h), b':', digit(m / 10), digit(m)]);
        end += 6;
    }
    text[end] = b'"';
    out.extend_from_slice(&text[..end + 1]);
}

fn push_all(out: &mut Vec<u8>, kind: &str, count: u32) {
    let (mut day, mut value) = (0, 0);
    for _ in 0..count {
        if out.len() > LONG {
            out.clear();
        }
        match kind {
            "date" => push_date(out, day),
            "timestamp" => push_timestamp(out, None, value),
            _ => push_timestamp(out, Some(-90), value),
        }
        out.push(b'\n');
        day = if day > 100_000 { -100_000 } else { day + 37 };
        value = if value > 1_000_000_000_000_000 { -1_000_000_000_000_000 } else { value + 123_456_789 };
    }
}

fn main() {
    let given: Vec<String> = std::env::args().collect();
    let mut out = Vec::new();
    push_all(&mut out, &given[1], given[2].parse().unwrap());
    print!("{}", String::from_utf8(out).unwrap());
}
