
// ---- Above stands config.rs, byte for byte. From here on: what 01 asks of a text and of a list of settings, told from that Rust.
// ---- run.sh appends it when it builds, so it stands in the same module and may call what is private there.

/// What 01 asks of a text: the number, the key's number, how many settings were applied before, the decode buffer over the text's
/// length (none for 1 and 2, which touch nothing), and the report (empty for a refusal).
#[derive(Clone, PartialEq, Eq, Debug)]
pub struct Told {
    pub number: u32,
    pub key: u32,
    pub count: usize,
    pub decode: Option<Vec<u8>>,
    pub report: Vec<u8>,
}

const KEYS: [&str; 19] = [
    "user",
    "password",
    "dbname",
    "options",
    "application_name",
    "sslmode",
    "sslnegotiation",
    "host",
    "hostaddr",
    "port",
    "connect_timeout",
    "tcp_user_timeout",
    "keepalives",
    "keepalives_idle",
    "keepalives_interval",
    "keepalives_retries",
    "target_session_attrs",
    "channel_binding",
    "load_balance_hosts",
];

/// A setting's kind: its key's number, 0 for an unknown key; 20 is one host from a URI.
const ONE_HOST: u32 = 20;

fn kind_of(key: &[u8]) -> u32 {
    KEYS.iter().position(|k| k.as_bytes() == key).map_or(0, |i| i as u32 + 1)
}

/// The number and key that one of the Rust's errors stands for. 7 and 8 share a wording: here it is 7.
fn numbered(e: &PgWireClientError) -> (u32, u32) {
    let wording = match e {
        PgWireClientError::UnknownConfig(_) => return (4, 0),
        PgWireClientError::InvalidUtf8ConfigValue(_) => return (12, 0),
        PgWireClientError::InvalidConfig(wording) => wording.as_str(),
    };
    match wording {
        "unexpected EOF" => (7, 0),
        "unterminated quoted connection parameter value" => (9, 0),
        // key host refuses no value, so only a bracket is meant
        "host" => (10, 0),
        "unterminated parameter" => (11, 0),
        _ if wording.starts_with("unexpected character at byte ") => (6, 0),
        _ => match kind_of(wording.as_bytes()) {
            0 => panic!("an error without a number: {}", wording),
            key => (5, key),
        },
    }
}

/// A walk through a text's settings, each applied by the Rust's own functions.
#[derive(Default)]
struct Walk {
    config: Config,
    count: usize,
    kept: Vec<u8>,
    // the Rust's own error, and what it stands for
    error: Option<(PgWireClientError, (u32, u32))>,
    // the first list that passed 16, by its number, and how many settings had been applied: the Rust knows no limit, and goes on
    full: Option<(u32, usize)>,
}

impl Walk {
    fn stop(&mut self, e: PgWireClientError) {
        let number = numbered(&e);
        self.error = Some((e, number));
    }

    /// Books a setting that the Rust applied, or refused: then the walk is over, and the answer is false.
    fn book(&mut self, kind: u32, value: &[u8], outcome: Result<(), PgWireClientError>) -> bool {
        let (number, entries) = match kind {
            8 | ONE_HOST => (13, self.config.host.len()),
            9 => (14, self.config.hostaddr.len()),
            10 => (15, self.config.port.len()),
            _ => (0, 0),
        };
        if entries > 16 && self.full.is_none() {
            self.full = Some((number, self.count));
        }
        if let Err(e) = outcome {
            self.stop(e);
            return false;
        }
        self.count += 1;
        if matches!(kind, 1..=5 | 8 | ONE_HOST) {
            self.kept.extend_from_slice(value);
        }
        true
    }

    /// Parameter after parameter of a key-value text.
    fn pairs(&mut self, s: &str) {
        let mut parser = Parser { s, it: s.char_indices().peekable() };
        loop {
            let before = parser.it.clone();
            match parser.parameter() {
                Ok(None) => return,
                Ok(Some((key, value))) => {
                    let outcome = self.config.param(key, &value);
                    if !self.book(kind_of(key.as_bytes()), value.as_bytes(), outcome) {
                        return;
                    }
                }
                Err(e) => {
                    self.stop(e);
                    if let Some((_, number @ (7, 0))) = &mut self.error {
                        // the same way again: where `=` is found, the value was missing
                        let mut again = Parser { s, it: before };
                        again.skip_ws();
                        again.keyword();
                        again.skip_ws();
                        if again.eat('=').is_ok() {
                            *number = (8, 0);
                        }
                    }
                    return;
                }
            }
        }
    }

    /// Runs one of the URI parser's own functions on a part of the text, and gives what it leaves unread.
    fn part<'a>(&mut self, s: &'a str, run: fn(&mut UrlParser<'a>) -> Result<(), PgWireClientError>) -> (Result<(), PgWireClientError>, &'a str) {
        let mut parser = UrlParser { s, config: mem::take(&mut self.config) };
        let outcome = run(&mut parser);
        self.config = parser.config;
        (outcome, parser.s)
    }

    /// The four parts of a URI: the host part chunk by chunk, the parameters one by one.
    fn uri(&mut self, s: &str) {
        let (outcome, s) = self.part(s, UrlParser::parse_credentials);
        if let Err(e) = outcome {
            return self.stop(e); // the user's: nothing was applied
        }
        if let Some(user) = self.config.user.clone() {
            self.book(1, user.as_bytes(), Ok(()));
        }
        if let Some(password) = self.config.password.clone() {
            self.book(2, &password, Ok(()));
        }

        let hosts = &s[..s.find(&['/', '?'][..]).unwrap_or(s.len())];
        if !hosts.is_empty() {
            for chunk in hosts.split(',') {
                // an empty chunk is the empty host with the default port; alone it would be no host part
                let chunk = if chunk.is_empty() { ":5432" } else { chunk };
                let hosts_before = self.config.host.len();
                let (outcome, _) = self.part(chunk, UrlParser::parse_host);
                if self.config.host.len() == hosts_before {
                    return self.stop(outcome.unwrap_err());
                }
                let host = host_bytes(&self.config);
                self.book(ONE_HOST, &host, Ok(()));
                if !self.book(10, b"", outcome) {
                    return;
                }
            }
        }

        let s = &s[hosts.len()..];
        let named = s.len() > 1 && s.starts_with('/') && !s.starts_with("/?");
        let (outcome, s) = self.part(s, UrlParser::parse_path);
        if let Err(e) = outcome {
            return self.stop(e);
        }
        if named {
            let dbname = self.config.dbname.clone().unwrap();
            self.book(3, dbname.as_bytes(), Ok(()));
        }

        let mut rest = s.get(1..).unwrap_or("");
        while !rest.is_empty() {
            let equals = rest.find('=');
            let from = equals.map_or(rest.len(), |i| i + 1);
            let to = rest[from..].find('&').map_or(rest.len(), |i| from + i);
            let alone = format!("?{}", &rest[..to]);
            let outcome = self.part_alone(&alone);
            let key: Vec<u8> = percent_encoding::percent_decode(rest[..equals.unwrap_or(0)].as_bytes()).collect();
            let value: Vec<u8> = percent_encoding::percent_decode(rest[from..to].as_bytes()).collect();
            let kind = if key == b"host" { ONE_HOST } else { kind_of(&key) };
            if !self.book(kind, &value, outcome) {
                return;
            }
            rest = rest.get(to + 1..).unwrap_or("");
        }
    }

    fn part_alone(&mut self, parameter: &str) -> Result<(), PgWireClientError> {
        self.part(parameter, UrlParser::parse_params).0
    }

    /// The number and key of the refusal, with the count of settings before it; 0 where there is none.
    fn answer(&self) -> (u32, u32, usize) {
        match (self.full, &self.error) {
            (Some((number, count)), _) => (number, 0, count),
            (None, Some((_, (number, key)))) => (*number, *key, self.count),
            (None, None) => (0, 0, self.count),
        }
    }
}

/// The bytes of the last host.
fn host_bytes(config: &Config) -> Vec<u8> {
    match config.host.last().unwrap() {
        Host::Tcp(name) => name.clone().into_bytes(),
        Host::Unix(path) => path.as_os_str().as_bytes().to_vec(),
    }
}

/// What 01 asks of a text, with a decode buffer of `room` bytes. `from_str` gives the verdict; the walk, which must come to the
/// same one, tells what the Rust does not show.
pub fn told(text: &[u8], room: usize) -> Told {
    let refused = |number, key, count| Told { number, key, count, decode: Some(vec![0; text.len()]), report: vec![] };
    if text.len() > 4096 {
        return Told { decode: None, ..refused(1, 0, 0) };
    }
    if room < text.len() {
        return Told { decode: None, ..refused(2, 0, 0) };
    }
    let s = match str::from_utf8(text) {
        Ok(s) => s,
        Err(_) => return refused(3, 0, 0),
    };
    let mut walk = Walk::default();
    match UrlParser::remove_url_prefix(s) {
        Some(rest) => walk.uri(rest),
        None => walk.pairs(s),
    }
    match (s.parse::<Config>(), &walk.error) {
        (Ok(config), None) => assert!(config == walk.config, "the walk leaves another record than from_str: {:?}", s),
        (Err(e), Some((f, _))) => assert_eq!(format!("{:?}", e), format!("{:?}", f), "the walk ends otherwise than from_str: {:?}", s),
        (verdict, _) => panic!("the walk ends otherwise than from_str: {:?} {:?}", s, verdict),
    }
    let (number, key, count) = walk.answer();
    if number != 0 {
        return refused(number, key, count);
    }
    let mut decode = walk.kept;
    assert!(decode.len() <= text.len(), "more is kept than the text has: {:?}", s);
    decode.resize(text.len(), 0);
    Told { number, key, count, decode: Some(decode), report: report(&walk.config) }
}

/// A setting as a list of them is given: a key's name, or none for one host from a URI.
pub type Setting<'a> = (Option<&'a str>, &'a [u8]);

/// Settings applied one after the other by `Config::param`, one host as the URI parser does: number, key and count as for a text, and
/// the report of the record, which is the default one where a setting is refused, as it is for a text. None where a value is not UTF-8
/// though it must be: the Rust can't be asked.
pub fn applied(list: &[Setting]) -> Option<(u32, u32, usize, Vec<u8>)> {
    let mut walk = Walk::default();
    for (key, value) in list {
        let (kind, outcome) = match key {
            None if value.first() == Some(&b'/') => {
                walk.config.host_path(OsStr::from_bytes(value));
                (ONE_HOST, Ok(()))
            }
            None => {
                walk.config.host(str::from_utf8(value).ok()?);
                (ONE_HOST, Ok(()))
            }
            Some(key) => (kind_of(key.as_bytes()), walk.config.param(key, str::from_utf8(value).ok()?)),
        };
        if !walk.book(kind, value, outcome) || walk.full.is_some() {
            walk.config = Config::new();
            break;
        }
    }
    let (number, key, count) = walk.answer();
    Some((number, key, count, report(&walk.config)))
}

/// A call of a setter: its key, a word's number (a switch, an address's kind), and a number in two halves.
pub type Call = (u8, u8, u64, u64);

/// The setters called one after the other: a number for each call, and the report of the record. The Rust knows no limit of 16, so a
/// call that would pass it is not made: 01 gives it 14 or 15.
pub fn set(calls: &[Call]) -> (Vec<u8>, Vec<u8>) {
    let mut config = Config::new();
    let numbers = calls.iter().map(|call| set_one(&mut config, *call)).collect();
    (numbers, report(&config))
}

fn set_one(c: &mut Config, (key, word, high, low): Call) -> u8 {
    let (word, seconds) = (word as usize, Duration::from_secs(low));
    match key {
        9 if c.hostaddr.len() == 16 => return 14,
        10 if c.port.len() == 16 => return 15,
        6 => c.ssl_mode([SslMode::Disable, SslMode::Prefer, SslMode::Require][word]),
        7 => c.ssl_negotiation([SslNegotiation::Postgres, SslNegotiation::Direct][word]),
        9 if word == 4 => c.hostaddr(IpAddr::from((low as u32).to_be_bytes())),
        9 => c.hostaddr(IpAddr::from(((high as u128) << 64 | low as u128).to_be_bytes())),
        10 => c.port(low as u16),
        11 => c.connect_timeout(seconds),
        12 => c.tcp_user_timeout(seconds),
        13 => c.keepalives(word != 0),
        14 => c.keepalives_idle(seconds),
        15 => c.keepalives_interval(seconds),
        16 => c.keepalives_retries(low as u32),
        17 => c.target_session_attrs([TargetSessionAttrs::Any, TargetSessionAttrs::ReadWrite, TargetSessionAttrs::ReadOnly][word]),
        18 => c.channel_binding([ChannelBinding::Disable, ChannelBinding::Prefer, ChannelBinding::Require][word]),
        19 => c.load_balance_hosts([LoadBalanceHosts::Disable, LoadBalanceHosts::Random][word]),
        _ => panic!("no setter has key {}", key),
    };
    0
}

/// 01's report of a record.
pub fn report(c: &Config) -> Vec<u8> {
    let mut lines = Lines(Vec::new());
    lines.text(1, &c.user);
    if c.password.is_some() {
        lines.line(2, b"_");
    }
    lines.text(3, &c.dbname);
    lines.text(4, &c.options);
    lines.text(5, &c.application_name);
    lines.word(6, match c.ssl_mode {
        SslMode::Disable => "disable",
        SslMode::Prefer => "prefer",
        SslMode::Require => "require",
    });
    lines.word(7, match c.ssl_negotiation {
        SslNegotiation::Postgres => "postgres",
        SslNegotiation::Direct => "direct",
    });
    for host in &c.host {
        let value = match host {
            Host::Tcp(name) => [b"tcp:", name.as_bytes()].concat(),
            Host::Unix(path) => [b"unix:", path.as_os_str().as_bytes()].concat(),
        };
        lines.line(8, &value);
    }
    for address in &c.hostaddr {
        let value = match address {
            IpAddr::V4(a) => a.octets().iter().map(|part| part.to_string()).collect::<Vec<_>>().join("."),
            IpAddr::V6(a) => a.segments().iter().map(|group| format!("{:04x}", group)).collect::<Vec<_>>().join(":"),
        };
        lines.word(9, &value);
    }
    for port in &c.port {
        lines.word(10, &port.to_string());
    }
    lines.seconds(11, c.connect_timeout);
    lines.seconds(12, c.tcp_user_timeout);
    lines.word(13, if c.keepalives { "1" } else { "0" });
    lines.seconds(14, Some(c.keepalive_config.idle));
    lines.seconds(15, c.keepalive_config.interval);
    if let Some(retries) = c.keepalive_config.retries {
        lines.word(16, &retries.to_string());
    }
    lines.word(17, match c.target_session_attrs {
        TargetSessionAttrs::Any => "any",
        TargetSessionAttrs::ReadWrite => "read-write",
        TargetSessionAttrs::ReadOnly => "read-only",
    });
    lines.word(18, match c.channel_binding {
        ChannelBinding::Disable => "disable",
        ChannelBinding::Prefer => "prefer",
        ChannelBinding::Require => "require",
    });
    lines.word(19, match c.load_balance_hosts {
        LoadBalanceHosts::Disable => "disable",
        LoadBalanceHosts::Random => "random",
    });
    lines.0
}

struct Lines(Vec<u8>);

impl Lines {
    fn line(&mut self, key: usize, value: &[u8]) {
        self.0.extend_from_slice(KEYS[key - 1].as_bytes());
        self.0.push(b'=');
        for &b in value {
            match b {
                b'%' => self.0.extend_from_slice(b"%25"),
                0x21..=0x7e => self.0.push(b),
                _ => self.0.extend_from_slice(format!("%{:02X}", b).as_bytes()),
            }
        }
        self.0.push(b'\n');
    }

    fn word(&mut self, key: usize, value: &str) {
        self.line(key, value.as_bytes());
    }

    fn text(&mut self, key: usize, value: &Option<String>) {
        if let Some(value) = value {
            self.word(key, value);
        }
    }

    fn seconds(&mut self, key: usize, value: Option<Duration>) {
        if let Some(value) = value {
            assert_eq!(value.subsec_nanos(), 0);
            self.word(key, &value.as_secs().to_string());
        }
    }
}
