// 01 in plain Rust over bytes, with nothing of config.rs, of str's parsing or of percent_encoding: a text reads as a list of settings and
// an end, and the settings are applied in order. The Rust that is ported is held to it, and where that Rust is not at hand it stands in.

/// What 01 asks of a text: see original::Told.
#[derive(Clone, PartialEq, Debug)]
pub struct Answer {
    pub number: u32,
    pub key: u32,
    pub count: usize,
    pub decode: Option<Vec<u8>>,
    pub report: Vec<u8>,
}

#[derive(Clone)]
pub enum Setting {
    Keyed(Vec<u8>, Vec<u8>),
    OneHost(Vec<u8>),
}

pub const KEYS: [&str; 19] = [
    "user", "password", "dbname", "options", "application_name", "sslmode", "sslnegotiation", "host", "hostaddr", "port", "connect_timeout",
    "tcp_user_timeout", "keepalives", "keepalives_idle", "keepalives_interval", "keepalives_retries", "target_session_attrs",
    "channel_binding", "load_balance_hosts",
];

pub const SPACES: [char; 25] = [
    '\u{9}', '\u{a}', '\u{b}', '\u{c}', '\u{d}', '\u{20}', '\u{85}', '\u{a0}', '\u{1680}', '\u{2000}', '\u{2001}', '\u{2002}', '\u{2003}',
    '\u{2004}', '\u{2005}', '\u{2006}', '\u{2007}', '\u{2008}', '\u{2009}', '\u{200a}', '\u{2028}', '\u{2029}', '\u{202f}', '\u{205f}',
    '\u{3000}',
];

fn is_space(c: char) -> bool {
    SPACES.contains(&c)
}

/// RFC 3629: code points below 110000 but no surrogates, each in its shortest form. None: not UTF-8.
fn characters(s: &[u8]) -> Option<Vec<char>> {
    let mut all = vec![];
    let mut i = 0;
    while i < s.len() {
        let (len, least, first) = match s[i] {
            b @ 0..=0x7f => (1, 0, b),
            b @ 0xc0..=0xdf => (2, 0x80, b & 0x1f),
            b @ 0xe0..=0xef => (3, 0x800, b & 0x0f),
            b @ 0xf0..=0xf7 => (4, 0x1_0000, b & 0x07),
            _ => return None,
        };
        let mut code = first as u32;
        for k in 1..len {
            match s.get(i + k) {
                Some(b @ 0x80..=0xbf) => code = code << 6 | (b & 0x3f) as u32,
                _ => return None,
            }
        }
        if code < least {
            return None;
        }
        all.push(char::from_u32(code)?);
        i += len;
    }
    Some(all)
}

fn bytes(s: &[char]) -> Vec<u8> {
    s.iter().collect::<String>().into_bytes()
}

fn hex(b: Option<&u8>) -> Option<u8> {
    (*b? as char).to_digit(16).map(|d| d as u8)
}

/// "`%` and two hex digits of either case give a byte; any other `%` stays"
fn percent(s: &[u8]) -> Vec<u8> {
    let mut out = vec![];
    let mut i = 0;
    while i < s.len() {
        match (s[i], hex(s.get(i + 1)), hex(s.get(i + 2))) {
            (b'%', Some(high), Some(low)) => {
                out.push(high * 16 + low);
                i += 3;
            }
            (b, _, _) => {
                out.push(b);
                i += 1;
            }
        }
    }
    out
}

/// Decoded, and refused where it is not UTF-8 then.
fn decoded(s: &[u8]) -> Result<Vec<u8>, u32> {
    let x = percent(s);
    characters(&x).map(|_| x).ok_or(12)
}

/// "Skip white space; a key runs to white space or `=`." The settings go to `out`, the end is the result.
fn key_value(s: &[char], out: &mut Vec<Setting>) -> Result<(), u32> {
    let run = |i: usize, rule: &dyn Fn(char) -> bool| i + s[i..].iter().take_while(|c| rule(**c)).count();
    let mut at = 0;
    loop {
        at = run(at, &is_space);
        let end = run(at, &|c| c != '=' && !is_space(c));
        let key = bytes(&s[at..end]);
        if key.is_empty() {
            return Ok(());
        }
        at = run(end, &is_space);
        match s.get(at) {
            None => return Err(7),
            Some('=') => at = run(at + 1, &is_space),
            Some(_) => return Err(6),
        }
        let quoted = s.get(at) == Some(&'\'');
        at += quoted as usize;
        let mut value = vec![];
        loop {
            match s.get(at) {
                None if quoted => return Err(9),
                None => break,
                Some('\'') if quoted => {
                    at += 1;
                    break;
                }
                Some(c) if !quoted && is_space(*c) => break,
                Some('\\') => {
                    value.extend(s.get(at + 1));
                    at = s.len().min(at + 2);
                }
                Some(c) => {
                    value.push(*c);
                    at += 1;
                }
            }
        }
        if value.is_empty() && !quoted {
            return Err(8);
        }
        out.push(Setting::Keyed(key, bytes(&value)));
    }
}

/// What precedes the first of these bytes, and what stands from there on; none where there is none.
fn cut<'a>(s: &'a [u8], ends: &[u8]) -> Option<(&'a [u8], &'a [u8])> {
    s.iter().position(|b| ends.contains(b)).map(|i| s.split_at(i))
}

fn keyed(key: &str, value: Vec<u8>) -> Setting {
    Setting::Keyed(key.as_bytes().to_vec(), value)
}

/// "One host that starts with `/` after decoding is a Unix path and may be any bytes; any other is TCP and must be UTF-8."
fn one_host(s: &[u8]) -> Result<Setting, u32> {
    let x = percent(s);
    if x.first() != Some(&b'/') && characters(&x).is_none() {
        return Err(12);
    }
    Ok(Setting::OneHost(x))
}

/// A chunk's host, and its port where it has one.
fn chunk(s: &[u8]) -> Result<(&[u8], &[u8]), u32> {
    const DEFAULT: &[u8] = b"5432";
    if s.first() == Some(&b'[') {
        let (host, rest) = cut(&s[1..], b"]").ok_or(10u32)?;
        return match rest {
            [_] => Ok((host, DEFAULT)),
            [_, b':', port @ ..] => Ok((host, port)),
            _ => Err(10),
        };
    }
    Ok(cut(s, b":").map_or((s, DEFAULT), |(host, rest)| (host, &rest[1..])))
}

fn uri(s: &[u8], out: &mut Vec<Setting>) -> Result<(), u32> {
    let mut s = s;
    if let Some((credentials, rest)) = cut(s, b"@") {
        s = &rest[1..];
        let (user, password) = cut(credentials, b":").map_or((credentials, None), |(u, p)| (u, Some(&p[1..])));
        out.push(keyed("user", decoded(user)?));
        out.extend(password.map(|p| keyed("password", percent(p))));
    }
    let (hosts, rest) = cut(s, b"/?").unwrap_or((s, b""));
    s = rest;
    if !hosts.is_empty() {
        for c in hosts.split(|b| *b == b',') {
            let (host, port) = chunk(c)?;
            out.push(one_host(host)?);
            out.push(keyed("port", decoded(port)?));
        }
    }
    if s.first() == Some(&b'/') {
        let (dbname, rest) = cut(s, b"?").unwrap_or((s, b""));
        s = rest;
        if dbname.len() > 1 {
            out.push(keyed("dbname", decoded(&dbname[1..])?));
        }
    }
    if !s.is_empty() {
        s = &s[1..];
    }
    while !s.is_empty() {
        let (key, rest) = cut(s, b"=").ok_or(11u32)?;
        let key = decoded(key)?;
        let (value, rest) = cut(&rest[1..], b"&").unwrap_or((&rest[1..], b""));
        s = rest.get(1..).unwrap_or(b"");
        out.push(if key == b"host" { one_host(value)? } else { Setting::Keyed(key, decoded(value)?) });
    }
    Ok(())
}

/// An optional `+`, or `-` where the range has negative numbers, then digits; within the range.
fn number(s: &[u8], least: i128, most: i128) -> Option<i128> {
    let (sign, digits) = match s.first()? {
        b'+' => (1, &s[1..]),
        b'-' if least < 0 => (-1, &s[1..]),
        _ => (1, s),
    };
    if digits.is_empty() || !digits.iter().all(u8::is_ascii_digit) {
        return None;
    }
    // far above every range the value no longer matters
    let value = digits.iter().fold(0i128, |n, d| (n * 10 + (d - b'0') as i128).min(1 << 100)) * sign;
    if least <= value && value <= most { Some(value) } else { None }
}

fn four(s: &[u8]) -> Option<Vec<u16>> {
    let part = |p: &[u8]| {
        let plain = p.len() <= 3 && p.iter().all(u8::is_ascii_digit) && (p == b"0" || p.first() != Some(&b'0'));
        if plain { number(p, 0, 255).map(|n| n as u16) } else { None }
    };
    let parts: Option<Vec<u16>> = s.split(|b| *b == b'.').map(part).collect();
    parts.filter(|p| p.len() == 4)
}

/// Groups between colons, the last two of them as four decimals where `tail` allows it.
fn groups(s: &[u8], tail: bool) -> Option<Vec<u16>> {
    let mut all = vec![];
    if s.is_empty() {
        return Some(all);
    }
    let parts: Vec<&[u8]> = s.split(|b| *b == b':').collect();
    for (i, p) in parts.iter().enumerate() {
        if tail && i + 1 == parts.len() && p.contains(&b'.') {
            let q = four(p)?;
            all.extend([q[0] << 8 | q[1], q[2] << 8 | q[3]]);
        } else if (1..=4).contains(&p.len()) {
            all.push(p.iter().try_fold(0, |n, b| Some(n << 4 | hex(Some(b))? as u16))?);
        } else {
            return None;
        }
    }
    Some(all)
}

fn six(s: &[u8]) -> Option<Vec<u16>> {
    let gap = match s.windows(2).position(|w| w == b"::") {
        None => return groups(s, true).filter(|g| g.len() == 8),
        Some(gap) => gap,
    };
    let (mut front, back) = (groups(&s[..gap], false)?, groups(&s[gap + 2..], true)?);
    if front.len() + back.len() > 7 {
        return None;
    }
    front.resize(8 - back.len(), 0);
    front.extend(back);
    Some(front)
}

/// An address as the report shows it.
fn address(s: &[u8]) -> Option<String> {
    let joined = |parts: Vec<String>, by: &str| parts.join(by);
    match four(s) {
        Some(parts) => Some(joined(parts.iter().map(|p| p.to_string()).collect(), ".")),
        None => Some(joined(six(s)?.iter().map(|g| format!("{:04x}", g)).collect(), ":")),
    }
}

/// The words of a key.
fn words(key: usize) -> &'static [&'static str] {
    match key {
        6 | 18 => &["disable", "prefer", "require"],
        7 => &["postgres", "direct"],
        17 => &["any", "read-write", "read-only"],
        19 => &["disable", "random"],
        _ => &[],
    }
}

/// What a record shows: for each key its values as the report has them, the words and switches too.
struct Values([Vec<Vec<u8>>; 19]);

impl Values {
    fn new() -> Values {
        let mut v: [Vec<Vec<u8>>; 19] = Default::default();
        for (key, value) in [(6, "prefer"), (7, "postgres"), (13, "1"), (14, "7200"), (17, "any"), (18, "prefer"), (19, "disable")] {
            v[key - 1] = vec![value.as_bytes().to_vec()];
        }
        Values(v)
    }

    /// One more entry of a list, or the number that a 17th gives.
    fn add(&mut self, key: usize, value: Vec<u8>) -> Result<(), (u32, u32)> {
        if self.0[key - 1].len() == 16 {
            return Err((key as u32 + 5, 0));
        }
        self.0[key - 1].push(value);
        Ok(())
    }

    fn add_host(&mut self, x: &[u8]) -> Result<(), (u32, u32)> {
        let kind: &[u8] = if x.first() == Some(&b'/') { b"unix:" } else { b"tcp:" };
        self.add(8, [kind, x].concat())
    }

    /// Applies a setting; the result tells its refusal's number and key.
    fn apply(&mut self, s: &Setting) -> Result<(), (u32, u32)> {
        let (key, v) = match s {
            Setting::OneHost(v) => return self.add_host(v),
            Setting::Keyed(key, v) => (KEYS.iter().position(|k| k.as_bytes() == &key[..]).ok_or((4, 0))? + 1, v),
        };
        let bad = (5, key as u32);
        match key {
            2 => self.0[1] = vec![b"_".to_vec()],
            1..=5 => self.0[key - 1] = vec![v.clone()],
            6 | 7 | 17 | 18 | 19 => {
                let word = words(key).iter().find(|w| w.as_bytes() == &v[..]).ok_or(bad)?;
                self.0[key - 1] = vec![word.as_bytes().to_vec()];
            }
            8 => v.split(|b| *b == b',').try_for_each(|piece| self.add_host(piece))?,
            9 => {
                for piece in v.split(|b| *b == b',') {
                    let shown = address(piece).ok_or(bad)?;
                    self.add(9, shown.into_bytes())?;
                }
            }
            10 => {
                for piece in v.split(|b| *b == b',') {
                    let port = if piece.is_empty() { 5432 } else { number(piece, 0, 65_535).ok_or(bad)? };
                    self.add(10, port.to_string().into_bytes())?;
                }
            }
            13 => {
                let on = number(v, 0, (1 << 64) - 1).ok_or(bad)? != 0;
                self.0[12] = vec![if on { b"1".to_vec() } else { b"0".to_vec() }];
            }
            16 => self.0[15] = vec![number(v, 0, (1 << 32) - 1).ok_or(bad)?.to_string().into_bytes()],
            _ => {
                let seconds = number(v, -(1 << 63), (1 << 63) - 1).ok_or(bad)?;
                if seconds > 0 {
                    self.0[key - 1] = vec![seconds.to_string().into_bytes()];
                }
            }
        }
        Ok(())
    }

    /// One call of a setter, and its number: a list has one entry more, any other setting is replaced, by zero too.
    fn set(&mut self, (key, word, high, low): Call) -> u8 {
        let key = key as usize;
        let shown = match key {
            6 | 7 | 17 | 18 | 19 => words(key)[word as usize].to_string(),
            9 if word == 4 => (low as u32).to_be_bytes().map(|part| part.to_string()).join("."),
            9 => [48, 32, 16, 0].map(|n| high >> n).iter().chain(&[48, 32, 16, 0].map(|n| low >> n)).map(|g| format!("{:04x}", *g as u16)).collect::<Vec<_>>().join(":"),
            10 => (low as u16).to_string(),
            13 => ((word != 0) as u8).to_string(),
            16 => (low as u32).to_string(),
            _ => low.to_string(),
        };
        if key == 9 || key == 10 {
            return self.add(key, shown.into_bytes()).map_or_else(|(number, _)| number as u8, |()| 0);
        }
        self.0[key - 1] = vec![shown.into_bytes()];
        0
    }

    fn report(&self) -> Vec<u8> {
        let mut out = vec![];
        for (key, values) in KEYS.iter().zip(&self.0) {
            for value in values {
                out.extend_from_slice(key.as_bytes());
                out.push(b'=');
                for &b in value {
                    if b > 0x20 && b < 0x7f && b != b'%' {
                        out.push(b);
                    } else {
                        out.push(b'%');
                        out.push(b"0123456789ABCDEF"[(b >> 4) as usize]);
                        out.push(b"0123456789ABCDEF"[(b & 15) as usize]);
                    }
                }
                out.push(10);
            }
        }
        out
    }
}

/// The bytes that a setting keeps.
fn kept(s: &Setting) -> &[u8] {
    match s {
        Setting::OneHost(v) => v,
        Setting::Keyed(key, v) if ["user", "password", "dbname", "options", "application_name", "host"].iter().any(|k| k.as_bytes() == &key[..]) => v,
        Setting::Keyed(..) => b"",
    }
}

/// Settings applied in order: number, key and count, and the report of the record, which is the default one where a setting is refused.
pub fn applied(list: &[Setting]) -> (u32, u32, usize, Vec<u8>) {
    let mut values = Values::new();
    for (count, s) in list.iter().enumerate() {
        if let Err((number, key)) = values.apply(s) {
            return (number, key, count, Values::new().report());
        }
    }
    (0, 0, list.len(), values.report())
}

/// A call of a setter: its key, a word's number (a switch, an address's kind), and a number in two halves.
pub type Call = (u8, u8, u64, u64);

/// The setters called one after the other: a number for each call, and the report of the record.
pub fn set(calls: &[Call]) -> (Vec<u8>, Vec<u8>) {
    let mut values = Values::new();
    let numbers = calls.iter().map(|call| values.set(*call)).collect();
    (numbers, values.report())
}

pub fn answer(text: &[u8], room: usize) -> Answer {
    let zeros = || Some(vec![0; text.len()]);
    let refused = |number, key, count, decode| Answer { number, key, count, decode, report: vec![] };
    if text.len() > 4096 {
        return refused(1, 0, 0, None);
    }
    if room < text.len() {
        return refused(2, 0, 0, None);
    }
    let whole = match characters(text) {
        Some(whole) => whole,
        None => return refused(3, 0, 0, zeros()),
    };
    let mut settings = vec![];
    let prefix = ["postgres://", "postgresql://"].iter().find(|p| text.starts_with(p.as_bytes()));
    let end = match prefix {
        Some(p) => uri(&text[p.len()..], &mut settings),
        None => key_value(&whole, &mut settings),
    };
    let mut values = Values::new();
    for (count, s) in settings.iter().enumerate() {
        if let Err((number, key)) = values.apply(s) {
            return refused(number, key, count, zeros());
        }
    }
    if let Err(number) = end {
        return refused(number, 0, settings.len(), zeros());
    }
    let mut decode: Vec<u8> = settings.iter().flat_map(|s| kept(s).to_vec()).collect();
    assert!(decode.len() <= text.len());
    decode.resize(text.len(), 0);
    Answer { number: 0, key: 0, count: settings.len(), decode: Some(decode), report: values.report() }
}
