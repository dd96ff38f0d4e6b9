// The texts that are read: exhaustive short ones around each rule, then made by the grammar, damaged, and at the limits.
use crate::corpus::{any_of, damage, sequences, Rng};
use crate::model::{KEYS, SPACES};

const SHORT: &str = "postgres://";
const LONG: &str = "postgresql://";

/// Near every end of a range, and what is no number at all.
pub const NUMBERS: [&str; 34] = [
    "0", "1", "5432", "65535", "65536", "+1", "-1", "-0", "+0", "+", "-", "", "00005432", "4294967295", "4294967296", "9223372036854775807",
    "9223372036854775808", "-9223372036854775808", "-9223372036854775809", "18446744073709551615", "18446744073709551616",
    "99999999999999999999999999999999", "000000000000000000000000000000000001", "-00000000000000000009223372036854775808", "1.5", "0x10", "1e3", " 1",
    "1 ", "\u{661}", "--1", "+-1", "1,2", "1_000",
];
pub const ADDRESSES: [&str; 38] = [
    "1.2.3.4", "::1", "0.0.0.0", "255.255.255.255", "256.0.0.0", "01.2.3.4", "1.2.3", "1.2.3.4.5", "00.0.0.0", "1..2.3", "::", "1::",
    "1:2:3:4:5:6:7:8", "1:2:3:4:5:6:7::", "::2:3:4:5:6:7:8", "1:2:3:4::5:6:7:8", "1::2::3", ":::", ":", "1:2:3:4:5:6:7", "1:2:3:4:5:6:7:8:9",
    "::ffff:1.2.3.4", "1:2:3:4:5:6:1.2.3.4", "1:2:3:4:5:6:7:1.2.3.4", "::1.2.3.4:5", "1.2.3.4::", "fe80::1%eth0", "FFFF::aBcD", "12345::", "[::1]",
    "::1.2.3.04", "::1.2.3.256", "1:2:3:4:5::1.2.3.4", "1:2:3:4:5:6::1.2.3.4", ":1:2:3:4:5:6:7", "1:2:3:4:5:6:7:", "::1/64", "",
];
pub const WORDS: [&str; 14] = [
    "disable", "prefer", "require", "postgres", "direct", "any", "read-write", "read-only", "random", "Disable", "requir", "read_only", "anyy", "allow",
];
const HOSTS: [&str; 10] = ["db1", "h.example", "/run/pg", "", "10.0.0.1", "::1", "a b", "\u{e9}", "/", "tcp:x"];
const ODD: [&str; 18] = [
    "", "a", "'", "\\", "\\\\", "\\'", "%", "%41", "%zz", "%2C", "\0", "\u{180e}", "\u{200b}", "\u{feff}", "\u{e9}", "\u{1f600}", "=", "\u{2003}",
];
const KEYS_NEAR: [&str; 8] = ["User", "users", "use", "\u{e9}", "host ", "ports", "keepalive", "keepalives_"];

fn of<'a>(rng: &mut Rng, list: &[&'a str]) -> &'a str {
    list[rng.below(list.len())]
}

fn key(rng: &mut Rng) -> &'static str {
    if rng.one_in(25) { of(rng, &KEYS_NEAR) } else { of(rng, &KEYS) }
}

/// Entries of a list, most of them good ones (those in front), now and then about sixteen.
fn list(rng: &mut Rng, entries: &[&str], good: usize) -> String {
    let n = match rng.below(14) {
        0 => 14 + rng.below(5),
        1 => 2 + rng.below(6),
        _ => 1 + rng.below(2),
    };
    let all: Vec<&str> = (0..n).map(|_| if rng.one_in(15) { of(rng, entries) } else { of(rng, &entries[..good]) }).collect();
    all.join(",")
}

/// A value that a key may have, more often than not.
fn value(rng: &mut Rng, key: &str) -> String {
    if rng.one_in(14) {
        return (0..rng.below(5)).map(|_| of(rng, &ODD)).collect();
    }
    match key {
        "host" => list(rng, &HOSTS, 5),
        "hostaddr" => list(rng, &ADDRESSES, 4),
        "port" => list(rng, &NUMBERS, 4),
        "keepalives" | "keepalives_retries" if !rng.one_in(4) => rng.below(3).to_string(),
        "connect_timeout" | "tcp_user_timeout" | "keepalives_idle" | "keepalives_interval" if !rng.one_in(4) => rng.number().to_string(),
        "connect_timeout" | "tcp_user_timeout" | "keepalives" | "keepalives_idle" | "keepalives_interval" | "keepalives_retries" => of(rng, &NUMBERS).into(),
        "sslnegotiation" => of(rng, &["postgres", "direct", "postgres", "direct", "Direct", ""]).into(),
        "load_balance_hosts" => of(rng, &["disable", "random", "disable", "random", "prefer"]).into(),
        "target_session_attrs" => of(rng, &["any", "read-write", "read-only", "any", "primary"]).into(),
        "sslmode" | "channel_binding" => of(rng, &["disable", "prefer", "require", "prefer", "allow"]).into(),
        _ => (0..rng.below(5)).map(|_| if rng.one_in(3) { of(rng, &ODD) } else { of(rng, &["a", "bc", "x y", ",", "=", "@", "/", "-c geqo=off"]) }).collect(),
    }
}

fn blank(rng: &mut Rng) -> String {
    match rng.below(8) {
        0 => String::new(),
        1 => (0..1 + rng.below(3)).map(|_| SPACES[rng.below(25)]).collect(),
        _ => " ".into(),
    }
}

/// A key-value text.
pub fn pairs(rng: &mut Rng) -> Vec<u8> {
    let mut s = if rng.one_in(5) { blank(rng) } else { String::new() };
    for _ in 0..rng.below(8) {
        let key = key(rng);
        let value = value(rng, key);
        s += key;
        if rng.one_in(6) {
            s += &blank(rng);
        }
        if !rng.one_in(80) {
            s.push('=');
        }
        if rng.one_in(6) {
            s += &blank(rng);
        }
        let quoted = value.is_empty() || value.contains(|c: char| c.is_whitespace() || c == '\'') || rng.one_in(4);
        if quoted && !rng.one_in(25) {
            s.push('\'');
        }
        for c in value.chars() {
            if c == '\\' || c == '\'' && quoted || rng.one_in(20) {
                s.push('\\');
            }
            s.push(c);
        }
        if quoted && !rng.one_in(50) {
            s.push('\'');
        }
        s += &blank(rng);
    }
    s.into_bytes()
}

/// Percent encoding: what need not be encoded sometimes is, what must be sometimes is not, and a few breaks.
fn encoded(rng: &mut Rng, s: &str, plain: &str) -> String {
    let mut out = String::new();
    for b in s.bytes() {
        let bare = b.is_ascii_alphanumeric() || plain.as_bytes().contains(&b);
        if b < 0x80 && (bare && !rng.one_in(16) || rng.one_in(30)) {
            out.push(b as char);
        } else if rng.one_in(2) {
            out += &format!("%{:02x}", b);
        } else {
            out += &format!("%{:02X}", b);
        }
    }
    if rng.one_in(60) {
        out += of(rng, &["%FF", "%", "%4", "%C3%28", "%00", "%ED%A0%80", "%%41", "%25", "%c3", "\u{e9}"]);
    }
    out
}

/// A URI.
pub fn uri(rng: &mut Rng) -> Vec<u8> {
    let mut s = String::from(if rng.one_in(2) { SHORT } else { LONG });
    if rng.one_in(2) {
        let user = value(rng, "user");
        s += &encoded(rng, &user, "-._");
        if rng.one_in(2) {
            let password = value(rng, "password");
            s = s + ":" + &encoded(rng, &password, "-._:");
        }
        s.push('@');
    }
    if !rng.one_in(5) {
        let n = match rng.below(12) {
            0 => 14 + rng.below(5),
            1 => 3 + rng.below(5),
            _ => 1 + rng.below(2),
        };
        for i in 0..n {
            if i > 0 {
                s.push(',');
            }
            match rng.below(9) {
                0 => {
                    s.push('[');
                    s += of(rng, &["::1", "fe80::1", "", "a:b", "::1%25eth0", "%2Fx"]);
                    if !rng.one_in(20) {
                        s.push(']');
                    }
                    if rng.one_in(30) {
                        s.push('x');
                    }
                }
                1 => {}
                2 => s += "%2Frun%2fpg%FF",
                _ => {
                    let host = of(rng, &HOSTS);
                    s += &encoded(rng, host, "-._");
                }
            }
            if rng.one_in(2) {
                let port = list(rng, &NUMBERS, 4);
                s = s + ":" + &encoded(rng, if port.len() > 20 { "1" } else { &port }, "+-");
            }
        }
    }
    if rng.one_in(2) {
        let dbname = value(rng, "dbname");
        s = s + "/" + &encoded(rng, &dbname, "-._/");
    }
    if rng.one_in(2) {
        s.push('?');
        for i in 0..rng.below(7) {
            if i > 0 {
                s.push('&');
            }
            let key = key(rng);
            s += &encoded(rng, key, "_");
            if !rng.one_in(50) {
                s.push('=');
            }
            let value = value(rng, key);
            s += &encoded(rng, &value, "-._,:/+");
        }
        if rng.one_in(12) {
            s.push('&');
        }
    }
    s.into_bytes()
}

const SLIPS: &[u8] = b"=' \\@:/?&%,[]+-\0\x85\xc2\xa0\xff01aF";

fn exhaustive(large: bool, f: &mut dyn FnMut(&[u8])) {
    let mut around = |front: &str, pieces: &[&str], most: usize, back: &str| {
        let pieces: Vec<&[u8]> = pieces.iter().map(|p| p.as_bytes()).collect();
        let mut whole = Vec::new();
        sequences(&pieces, 0, most, &mut |s| {
            whole.clear();
            whole.extend_from_slice(front.as_bytes());
            whole.extend_from_slice(s);
            whole.extend_from_slice(back.as_bytes());
            f(&whole);
        });
    };
    let more = large as usize;
    // key-value: quotes, backslashes, blanks, what stands for `=`, what follows a closing quote
    around("", &["user", "=", "'", "\\", " ", "a", "\u{85}"], 4 + 2 * more, "");
    around("", &["a", "=", "'", " ", "\\"], 5 + 2 * more, "");
    around("port=1 ", &["dbname", "=", "'", "\\", "\n", ","], 4 + 2 * more, " user=b");
    around("user=", &["'", "\\", "\u{3000}", "\u{1f600}", "=", "a", "\u{200b}"], 4 + more, "");
    around("sslmode=x", &["'", " ", "=", "user", "\\"], 4 + more, "");
    // a URI's stages
    let stages = ["a", "@", ":", "/", "?", "[", "]", ",", "=", "&", "%41", "%", "%2C", "%FF", "host", "user"];
    around(SHORT, &stages, 3 + more, "");
    around("postgresql://h", &[":", "/", "?", "@", ",", "[", "]", "port=1", "&", "options="], 3 + 2 * more, "");
    around(SHORT, &["[", "]", ":", ",", "1", "a", "/"], 4 + 2 * more, "");
    around(SHORT, &["@", ":", "%40", "%3A", "%ff", "a", "/"], 4 + 2 * more, "");
    around(SHORT, &["@", ":", "a", "/", "?", ","], 5 + 2 * more, "h");
    around("postgres://h/?", &["host", "user", "=", "&", "%", "%FF", ",", "password"], 4 + more, "");
    around("postgres://h/", &["?", "/", "=", "&", "%2F", "%fF", "d"], 4 + more, "?user=a");
    around("postgres://h:", &["0", "65535", "65536", "+", "%2c", "%2B", "%", ","], 3 + 2 * more, "");
    // percent forms, in each place that decodes
    for (front, back) in [("postgres:///?options=", ""), (SHORT, "@h"), ("postgres://u:", "@h"), (SHORT, ""), ("postgres:///", ""), ("postgres://%2F", ":1")] {
        around(front, &["%", "4", "1", "g", "F", "f", "C3", "a9"], 3 + more, back);
    }
    around("postgres:///?", &["ho%73t", "%75ser", "us%4", "%3D", "=", "&"], 4 + more, "");
    // numbers, addresses
    for key in ["port", "connect_timeout", "keepalives", "keepalives_retries", "keepalives_idle"] {
        around(&format!("{}=", key), &["0", "1", "65", "535", "+", "-", ","], 4 + more, "");
    }
    around("hostaddr=1.", &["0", "1", "25", "5", "6", ".", ",", "2."], 4 + more, "");
    around("hostaddr=", &[":", "::", "f", "1", "1234", "1.2.3.4", ".", ","], 4 + 2 * more, "");
    // a prefix, and what is none
    around("", &["postgres", "ql", ":", "/", "//", "P", " ", LONG], 4, "user=a");
}

/// Every byte and every pair of bytes, raw and encoded; more bytes at the edges of RFC 3629's table.
fn by_bytes(large: bool, f: &mut dyn FnMut(&[u8])) {
    let templates: [(&str, &str); 12] = [
        ("", ""), ("user=", ""), ("user='", "'"), ("user=a", "dbname=b"), (SHORT, ""), ("postgres://a", "b@h"), ("postgres://[", "]:1"),
        ("postgres://h:", "1"), ("postgres:///", "?user=a"), ("postgres:///?user=", "&port=1"), ("postgres", "//h"), ("user", "=a"),
    ];
    let wrapped = |front: &str, s: &[u8], back: &str| [front.as_bytes(), s, back.as_bytes()].concat();
    for a in 0..=255u8 {
        for (front, back) in templates {
            f(&wrapped(front, &[a], back));
            f(&wrapped(front, format!("%{:02x}", a).as_bytes(), back));
        }
        for b in (0..=255u8).step_by(if large { 1 } else { 15 }) {
            f(&wrapped("user=", &[a, b], ""));
            f(&wrapped("postgres:///", format!("%{:02x}%{:02X}", a, b).as_bytes(), ""));
            if large {
                f(&wrapped("postgres://%", &[a, b], ""));
                f(&wrapped("postgres://u:", format!("%{:02X}%{:02x}", a, b).as_bytes(), "@%2F"));
                f(&wrapped("", &[a, b], "=a"));
            }
        }
    }
    const EDGES: [u8; 23] = [
        0x7f, 0x80, 0x8f, 0x90, 0x9f, 0xa0, 0xbf, 0xc0, 0xc1, 0xc2, 0xdf, 0xe0, 0xe1, 0xec, 0xed, 0xee, 0xef, 0xf0, 0xf1, 0xf3, 0xf4, 0xf5, 0xff,
    ];
    let edges: Vec<&[u8]> = EDGES.chunks(1).collect();
    sequences(&edges, 3, if large { 4 } else { 3 }, &mut |s| {
        f(&wrapped("user=", s, ""));
        if s.len() == 3 {
            let encoded: String = s.iter().map(|b| format!("%{:02X}", b)).collect();
            f(&wrapped("postgres:///?options=", encoded.as_bytes(), ""));
            f(&wrapped("postgres://%2f", encoded.as_bytes(), ""));
        }
    });
}

/// Every code point where white space may stand, and behind a backslash.
fn by_code_points(large: bool, f: &mut dyn FnMut(&[u8])) {
    let last = if large { 0x10_ffff } else { 0x3100 };
    for c in (0..=last).filter_map(char::from_u32) {
        f(format!("user=a{}dbname=b", c).as_bytes());
        if (c as u32) < 0x1_1000 {
            f(format!("{c}user{c}={c}a{c}", c = c).as_bytes());
            f(format!("user='a'{c}dbname=\\{c}b", c = c).as_bytes());
        }
    }
}

/// Every kind of value for every key, in both forms, alone and with a setting behind it.
fn by_keys(f: &mut dyn FnMut(&[u8])) {
    let values = || NUMBERS.iter().chain(&ADDRESSES).chain(&WORDS).chain(&HOSTS).chain(&ODD);
    for key in KEYS.iter().chain(&KEYS_NEAR) {
        for v in values() {
            f(format!("{}={}", key, v).as_bytes());
            f(format!("{k}='{}' {k}=1", v, k = key).as_bytes());
            f(format!("{k}=1 {k}='{}' user=x", v, k = key).as_bytes());
            f(format!("postgres://h?{}={}&user=x", key, v).as_bytes());
            f(format!("postgres://h:{}/?{}=1", v, key).as_bytes());
        }
        // a byte lost, doubled or in another case
        for i in (0..key.len()).filter(|i| key.is_char_boundary(*i) && key.is_char_boundary(i + 1)) {
            f(format!("{}{}=1", &key[..i], &key[i + 1..]).as_bytes());
            f(format!("{}{}=1", &key[..i + 1], &key[i..]).as_bytes());
            f(format!("{}{}{}=1", &key[..i], key[i..i + 1].to_uppercase(), &key[i + 1..]).as_bytes());
        }
    }
    // a prefix with one byte changed
    for prefix in [SHORT, LONG] {
        for i in 0..prefix.len() {
            for b in [b' ', b'P', b'/', b':', b'=', b'x', 0] {
                let mut s = [prefix, "h?user=a"].concat().into_bytes();
                s[i] = b;
                f(&s);
            }
            f(&prefix.as_bytes()[..i]);
        }
    }
}

/// Lists of 13 to 18, the last entry good, empty or bad, in one setting or in several, before and behind other faults.
fn lists(f: &mut dyn FnMut(&[u8])) {
    for n in 12..18 {
        for last in ["", "1", "x", "1.2.3.4", "::1", "/s"] {
            for item in ["1", "1.2.3.4", "", "/t"] {
                let list = vec![item; n].join(",") + "," + last;
                for key in ["port", "hostaddr", "host"] {
                    f(format!("{}={}", key, list).as_bytes());
                    f(format!("user=a {k}=1,1 {k}={}", list, k = key).as_bytes());
                    f(format!("{}='{}' port=x", key, list).as_bytes());
                    f(format!("{}='{},x' foo=x", key, list).as_bytes());
                    f(format!("postgres:///?{}={}&x", key, list).as_bytes());
                    f(format!("postgres://h,h/?{}={}", key, list).as_bytes());
                    f(format!("{}{}={}", format!("{}=1 ", key).repeat(n), key, last).as_bytes());
                    f(format!("{}hostaddr={}", "hostaddr=::1 ".repeat(n), list).as_bytes());
                }
                f(format!("postgres://{}{}", format!("{},", item).repeat(n), last).as_bytes());
                for end in ["%FF", "[x", "[x]y", "a:x", "a:%FF", "a:1%2C2", "[a]:65536", "%2F%FF", "%2F%FF:x", "", ",", "a/%FF", "a?foo=1"] {
                    f(format!("postgres://{}{}{}", "a,".repeat(n), last, end).as_bytes());
                    f(format!("postgres://{}{}", "a:1%2C2,".repeat(n / 2), end).as_bytes());
                    f(format!("postgres://{}/?host={}&host={}", vec!["a"; n].join(","), last, end).as_bytes());
                    f(format!("postgres:///?{}{}", "host=a&".repeat(n), end).as_bytes());
                    f(format!("postgres:///?{}port={}{}", "port=1,&".repeat(n / 2), last, end).as_bytes());
                }
            }
        }
    }
}

/// Texts of 4,094 to 4,098 bytes, and longer.
fn sizes(f: &mut dyn FnMut(&[u8])) {
    let shapes: [(&str, &str, &str); 22] = [
        ("user=", "a", ""), ("user='", "\\'", "'"), ("user='", "a", ""), ("", " ", "user=a"), ("port=", "0", "1"), ("postgres://", ",", ""),
        ("postgres:///", "%41", ""), ("postgres://u:", "%ff", "@h"), ("user=", "\u{e9}", ""), ("user=", "\u{3000}", "a"), ("postgres:///?", "user=a&", ""),
        ("", "port=1 ", ""), ("", "user=a ", ""), ("", "\u{ff}", "\u{80}"), ("keepalives=", "0", "x"), ("hostaddr=", "0", ""), ("options='", "-c a=b ", "'"),
        ("postgres:///?options=", "%", "%"), ("postgres://", "a", "@h:1/d"), ("", "connect_timeout=0 ", ""), ("postgres:///?", "port=&", ""), ("host=", "x", ",/y"),
    ];
    for n in [4094, 4095, 4096, 4097, 4098, 5000] {
        for (front, fill, back) in shapes {
            let uri = front.starts_with(SHORT);
            let mut s = front.as_bytes().to_vec();
            while s.len() + fill.len() + back.len() <= n {
                s.extend_from_slice(fill.as_bytes());
            }
            while s.len() + back.len() < n {
                // what is left over stands where it means least
                s.insert(if uri { SHORT.len() } else { 0 }, if uri { b'u' } else { b' ' });
            }
            s.extend_from_slice(back.as_bytes());
            f(&s);
            for (at, b) in [(n - 1, 0xff), (n - 1, b'%'), (n / 2, 0xc3), (n / 2, b'@'), (n / 2, b' ')] {
                let mut damaged = s.clone();
                damaged[at] = b;
                f(&damaged);
            }
        }
    }
}

/// By the grammar, each with a damaged copy, and noise.
fn made(large: bool, rng: &mut Rng, f: &mut dyn FnMut(&[u8])) {
    for i in 0..if large { 700_000 } else { 12_000 } {
        let mut s = if i % 2 == 0 { pairs(rng) } else { uri(rng) };
        f(&s);
        for _ in 0..1 + rng.below(3) {
            damage(rng, &mut s, SLIPS);
        }
        f(&s);
        if i % 16 == 0 {
            f(&any_of(rng, &[b"user", b"=", b"'", b"\\", b" ", b"postgres://", b"@", b"%", b"host=", b",", b"\xc2\x85", b"\xff", b"1", b"/", b"?"], 12));
            let n = rng.below(40);
            let noise: Vec<u8> = (0..n).map(|_| rng.next() as u8).collect();
            f(&noise);
        }
        if i % 400 == 0 {
            // long: several texts in one
            let mut whole = s.clone();
            while whole.len() < 3000 + rng.below(1200) {
                whole.push(b" &"[i % 2]);
                let more = if i % 2 == 0 { pairs(rng) } else { b"user=%41%2f&options=-c%20a".to_vec() };
                whole.extend_from_slice(&more);
            }
            f(&whole);
        }
    }
}

/// Every text, the same ones for the same seed.
pub fn each(large: bool, rng: &mut Rng, f: &mut dyn FnMut(&[u8])) {
    exhaustive(large, f);
    by_bytes(large, f);
    by_code_points(large, f);
    by_keys(f);
    lists(f);
    sizes(f);
    made(large, rng, f);
}

/// Settings in lists: a key's name, or none for one host from a URI, with its value. First each kind of value for each key, known or not,
/// alone and behind one that is good; lists of 0 to 18 pieces, whose last piece is good, empty or bad, in one setting or in two.
pub fn each_setting(f: &mut dyn FnMut(&[(Option<&'static str>, Vec<u8>)])) {
    let bytes = |s: &str| s.as_bytes().to_vec();
    for key in KEYS.iter().chain(&KEYS_NEAR) {
        for v in NUMBERS.iter().chain(&ADDRESSES).chain(&WORDS).chain(&HOSTS).chain(&ODD) {
            f(&[(Some(*key), bytes(v))]);
            f(&[(Some(*key), bytes("1")), (Some(*key), bytes(v)), (Some("user"), bytes("x"))]);
            f(&[(None, bytes(v)), (Some(*key), bytes(v))]);
        }
    }
    for n in 0..=18 {
        for item in ["1", "1.2.3.4", "::1", "", "/t"] {
            for last in ["", "1", "x", "65536", "1.2.3.4", "::1", "/s"] {
                let list = [vec![item; n].join(","), last.to_string()].join(",");
                for key in ["port", "hostaddr", "host"] {
                    f(&[(Some(key), bytes(&list))]);
                    f(&[(Some(key), bytes(item)), (Some("user"), bytes("u")), (Some(key), bytes(&list)), (Some("port"), bytes("x"))]);
                }
                let mut many: Vec<(Option<&'static str>, Vec<u8>)> = vec![(None, bytes(item)); n];
                many.push((Some("host"), bytes(last)));
                f(&many);
            }
        }
    }
}

/// A list of settings, chosen freely.
pub fn settings(rng: &mut Rng) -> Vec<(Option<&'static str>, Vec<u8>)> {
    let n = if rng.one_in(12) { 10 + rng.below(12) } else { rng.below(7) };
    (0..n)
        .map(|_| {
            if rng.one_in(8) {
                let host: &[u8] = [b"db1", &b"/run/\xff\xfe"[..], b"a,b", b"", b"/a,/b", b"\xc3\xa9"][rng.below(6)];
                return (None, host.to_vec());
            }
            let key = key(rng);
            (Some(key), value(rng, key).into_bytes())
        })
        .collect()
}
