#!/usr/bin/env python3
"""Deliberate slips in a copy of the reader: each must be noticed by the program replay, whose standard input has the Rust's answers.

usage: differential/slips.py [NAME..]     all slips, or those named

The copy is not proved: `rt try` compiles it as it is, and runs the program on all vectors. The last line is 'slips: N tried, M noticed', and the exit status is 0 only where
the copy without a slip differs in nothing, every slip is noticed, and every `old` stands exactly once in its file.
"""
import os
import re
import shutil
import signal
import subprocess
import sys
import tempfile
from pathlib import Path

ROOT = Path(__file__).resolve().parent.parent
SECONDS = 300  # a slip that makes the program run for longer is noticed by that

# A slip is a name and its edits: the crate, the text that stands exactly once in its src/lib.rt, and what stands there instead.
SLIPS = [
    # document 01, "Slips to rule out"
    ("at_sign_only_before_the_first_slash", [
        ("uri_step", """\
    if s.len() <= end {
        return parse_host(s, at);
""", """\
    if split::find(s, at, b'/') < end {
        return parse_host(s, at);
    }
    if s.len() <= end {
        return parse_host(s, at);
"""),
    ]),
    ("uri_host_split_at_commas", [
        ("param", "20 => append(&mut config.host.list,", "20 => append_all(&mut config.host.list,"),
    ]),
    ("character_behind_backslash_dropped", [
        # measured by gained_at, and written by unescape
        ("backslash", "{ at + 1 } else { at }", "{ at + 2 } else { at }"),
        ("backslash", "    let mut behind = false;\n    let mut k = 0;\n", "    let mut behind = false;\n    let mut over = false;\n    let mut k = 0;\n"),
        ("backslash", """\
        if is_sign(behind, b) {
            behind = true;
            continue;
        }
        dst[at + k] = b;
""", """\
        if !over && is_sign(behind, b) {
            behind = true;
            continue;
        }
        if behind {
            behind = false;
            over = true;
            continue;
        }
        over = false;
        dst[at + k] = b;
"""),
    ]),
    ("syntax_judged_before_the_first_setting", [
        ("reader", "    let mut packed: usize = 0;\n", """\
    let mut ahead = url_parser::start(prefix);
    loop {
        match taking::take_setting(text, decode, uri, ahead, 0) {
            Ok(t) => ahead = t.next,
            Err(None) => break,
            Err(Some(refusal)) => return ending::refuse_text(decode, n, refusal.number() as usize, 0, 0),
        }
    }
    let mut packed: usize = 0;
"""),
    ]),
    ("only_ascii_white_space", [
        ("scan", "    space::is_space(code)\n", """\
    if 127 < code {
        return false;
    }
    space::is_space(code)
"""),
    ]),
    ("percent_behind_percent_swallowed", [
        ("percent", """\
    if high >= 16 {
        return Piece { byte, skip: 0 };
""", """\
    if high >= 16 {
        return Piece { byte, skip: 1 };
"""),
    ]),
    # kept values
    ("replaced_value_removed", [
        ("reader", "// The settings of a text, applied in order", """\
// The place of the text that is replaced, where nothing stands behind it.
fn freed(config: &Config, kind: usize, packed: usize) -> usize {
    let replaced = match kind {
        1 => config.user,
        2 => config.password,
        3 => config.dbname,
        4 => config.options,
        5 => config.application_name,
        _ => None,
    };
    match replaced {
        Some(place) => if place.start + place.len == packed { place.start } else { packed },
        None => packed,
    }
}

// The settings of a text, applied in order"""),
        ("reader", "        let t = match taking::take_setting(", """\
        if let Ok(ahead) = taking::take_setting(text, decode, uri, url, packed) {
            packed = freed(config, ahead.kind, packed);
        }
        let t = match taking::take_setting("""),
    ]),
    ("replaced_value_wiped", [
        ("reader", "        let t = match taking::take_setting(", """\
        if let Ok(ahead) = taking::take_setting(text, decode, uri, url, packed) {
            if ahead.kind == 2 {
                if let Some(place) = config.password {
                    byte::clear(decode, place.start, place.len);
                }
            }
        }
        let t = match taking::take_setting("""),
    ]),
    ("host_kept_per_piece", [
        ("reader", "// The settings of a text, applied in order", """\
// Takes the commas out of a part of the buffer, and answers where it ends then.
fn without_commas(decode: &mut [u8], at: usize, end: usize) -> usize {
    let mut k = at;
    for i in at..end {
        let b = decode[i];
        if b != b',' {
            decode[k] = b;
            k += 1;
        }
    }
    k
}

// The hosts from one on, each nearer by as many commas as stood before it.
fn close_up(config: &mut Config, first: usize) {
    for i in first..config.host.count {
        let kind = match config.host.list[i].kind {
            lists::HostKind::Tcp(p) => lists::HostKind::Tcp(lists::Place { start: p.start - (i - first), len: p.len }),
            lists::HostKind::Unix(p) => lists::HostKind::Unix(lists::Place { start: p.start - (i - first), len: p.len }),
        };
        config.host.list[i] = lists::Host { kind };
    }
}

// The settings of a text, applied in order"""),
        ("reader", "        let verdict = param::param(", """\
        let before = config.host.count;
        let verdict = param::param("""),
        ("reader", "        packed = t.packed;\n", """\
        let at = packed;
        packed = t.packed;
        if t.kind == 8 {
            packed = without_commas(decode, at, t.end);
            close_up(config, before);
        }
"""),
    ]),
    ("values_of_every_key_kept", [
        ("taking", "        _ => false,\n", "        _ => true,\n"),
    ]),
    # the reader
    ("refusal_leaves_the_buffer", [
        ("ending", "    byte::clear(decode, 0, n);\n", "    byte::clear(decode, n, 0);\n"),
    ]),
    ("refused_setting_counted", [
        ("ending", "        lists::key_of(verdict, kind),\n        count,\n", "        lists::key_of(verdict, kind),\n        count + 1,\n"),
    ]),
    ("longest_text_refused", [
        ("reader", "if 4096 < text.len() {", "if 4096 <= text.len() {"),
    ]),
    # the key-value parser
    ("text_behind_an_empty_key_refused", [
        ("keyvalue", "    if to == from {\n", """\
    if to == from {
        if from < s.len() {
            return Err(Some(Refusal::NoSign));
        }
"""),
    ]),
    ("blank_asked_for_behind_a_quote", [
        ("keyvalue", "        let next = quote + 1;\n", """\
        let next = quote + 1;
        if next < s.len() {
            if !scan::starts_space(s, next) {
                return Err(Some(Refusal::NoSign));
            }
        }
"""),
    ]),
    ("value_right_behind_equals_only", [
        ("keyvalue", "let start = scan::skip_ws(s, sign + 1);", "let start = sign + 1;"),
    ]),
    ("empty_quotes_refused", [
        ("keyvalue", "        let quote = value.to;\n", """\
        let quote = value.to;
        if value.len == 0 {
            return Err(Some(Refusal::EmptyValue));
        }
"""),
    ]),
    ("last_backslash_adds_itself", [
        ("backslash", "    if byte::at(s, at) == b'\\\\' { at + 1 } else { at }\n", """\
    if byte::at(s, at) != b'\\\\' {
        return at;
    }
    if s.len() <= at + 1 {
        return at;
    }
    at + 1
"""),
        ("backslash", """\
        behind = false;
        len += 1;
    }
    len
""", """\
        behind = false;
        len += 1;
    }
    if behind {
        len += 1;
    }
    len
"""),
        ("backslash", """\
        behind = false;
    }
    at + k
""", """\
        behind = false;
    }
    if behind {
        dst[at + k] = b'\\\\';
        k += 1;
    }
    at + k
"""),
    ]),
    # the URI parser
    ("credentials_up_to_the_last_at_sign", [
        ("uri_step", "// \"If an `@` stands anywhere", """\
fn last_at_sign(s: &[u8], at: usize) -> usize {
    let mut found = s.len();
    let mut i = at;
    while i < s.len() {
        if s[i] == b'@' {
            found = i;
        }
        i += 1;
    }
    found
}

// \"If an `@` stands anywhere"""),
        ("uri_step", "    let end = split::find(s, at, b'@');\n    if s.len() <= end {\n", "    let end = last_at_sign(s, at);\n    if s.len() <= end {\n"),
        ("uri_step", "    let end = password.end;\n", "    let end = last_at_sign(s, at);\n"),
    ]),
    ("password_of_credentials_must_be_utf8", [
        ("uri_step", "    let judged = password.judged;\n", """\
    let judged = password.judged;
    if !judged.utf8 {
        return Err(Some(Refusal::NotUtf8));
    }
"""),
    ]),
    ("empty_dbname_set", [
        ("uri_step", "    if end <= at {\n        return parse_params(s, at);\n    }\n", ""),
    ]),
    ("unix_path_must_be_utf8", [
        ("uri_values", "utf8: first == b'/',", "utf8: false,"),
    ]),
    ("last_ampersand_refused", [
        ("uri_step", "    if s.len() <= at {\n        return Err(None);\n", """\
    if s.len() <= at {
        if byte::at(s, at - 1) == b'&' {
            return Err(Some(Refusal::NoEquals));
        }
        return Err(None);
"""),
    ]),
    ("key_of_a_parameter_not_decoded", [
        ("uri_keys", "let n = percent_decode::decode(key, &mut name, 0);", "let n = byte::copy(key, &mut name, 0);"),
    ]),
    ("anything_behind_a_bracket_taken", [
        ("uri_chunks", "    c[at] == b':'\n", "    true\n"),
    ]),
    ("second_prefix_forgotten", [
        ("names", "if starts_with_name(s, 34) {", "if starts_with_name(s, 33) {"),
    ]),
    # percent decoding, UTF-8
    ("plus_decoded_to_a_blank", [
        ("percent", "    if byte != b'%' {\n", """\
    if byte == b'+' {
        return Piece { byte: b' ', skip: 0 };
    }
    if byte != b'%' {
"""),
    ]),
    ("lower_case_hex_digits_refused", [
        ("byte", "is_between(97, 102, b)", "is_between(97, 96, b)"),
    ]),
    ("surrogates_taken", [
        ("utf8_tail", "        return 0x9f;\n", "        return 0xbf;\n"),
    ]),
    ("overlong_forms_taken", [
        ("utf8_tail", "        return 0xa0;\n", "        return 0x80;\n"),
    ]),
    ("code_points_above_10ffff_taken", [
        ("utf8_tail", "if a == 0xf4 { 0x8f } else { 0xbf }", "0xbf"),
    ]),
    # numbers and addresses
    ("plus_sign_refused", [
        ("number", """\
    if byte::at(s, 0) == b'+' {
        digits_from(s, 1, 10, max)
    } else {
        digits_from(s, 0, 10, max)
    }
""", """\
    digits_from(s, 0, 10, max)
"""),
    ]),
    ("minus_sign_of_unsigned_passed_over", [
        ("number", "    if byte::at(s, 0) == b'+' {\n", """\
    if byte::at(s, 0) == b'-' {
        return digits_from(s, 1, 10, max);
    }
    if byte::at(s, 0) == b'+' {
"""),
    ]),
    ("last_port_refused", [
        ("integer", "read_unsigned(s, 0xffff)?", "read_unsigned(s, 0xfffe)?"),
    ]),
    ("lowest_number_refused", [
        ("integer", "digits_from(s, 1, 10, 0x8000_0000_0000_0000)?", "digits_from(s, 1, 10, 0x7fff_ffff_ffff_ffff)?"),
    ]),
    ("leading_zero_in_an_address", [
        ("ipv4", "    1 < s.len()\n", "    false\n"),
    ]),
    ("double_colon_for_no_group", [
        ("address", "7 - l.n < r.n {", "8 - l.n < r.n {"),
    ]),
    ("four_parts_before_a_double_colon", [
        ("address", "read_side(&s[..gap], false)", "read_side(&s[..gap], true)"),
    ]),
    ("group_of_five_digits", [
        ("group_text", "if 4 < s.len() {", "if 5 < s.len() {"),
    ]),
    # settings
    ("sixteenth_host_refused", [
        # a list of hosts alone, and no host of a URI
        ("list_keys", "        append(list, count, start + at, &v[at..end])?;\n", """\
        if T::FULL.number() == 13 && 15 <= *count {
            return Err(T::FULL);
        }
        append(list, count, start + at, &v[at..end])?;
"""),
    ]),
    ("room_judged_before_form", [
        ("list_keys", "    lists::keep(list, count, T::read(start, piece)?, T::FULL)\n", """\
    if T::FULL.number() == 15 && 16 <= *count {
        return Err(T::FULL);
    }
    lists::keep(list, count, T::read(start, piece)?, T::FULL)
"""),
    ]),
    ("empty_port_piece_refused", [
        ("list_keys", "            return Ok(5432);\n", "            return Err(Fault::Form);\n"),
    ]),
    ("zero_timeout_stored", [
        ("field_keys", "    if seconds != 0 {\n        *field = Some(seconds);\n    }\n", "    *field = Some(seconds);\n"),
    ]),
    ("keepalives_on_for_one_only", [
        ("field_keys", "*field = 0 < number::read_unsigned(", "*field = 1 == number::read_unsigned("),
    ]),
    ("read_only_taken_for_read_write", [
        ("field_keys", "_ => TargetSessionAttrs::ReadOnly,", "_ => TargetSessionAttrs::ReadWrite,"),
    ]),
    ("unknown_key_passed_over", [
        ("param", "_ => Err(Fault::UnknownKey),", "_ => Ok(()),"),
    ]),
    ("first_of_repeated_users_stays", [
        ("param", "        1 => put_text(&mut config.user, start, len),\n", """\
        1 => {
            if config.user.is_some() {
                return Ok(());
            }
            put_text(&mut config.user, start, len)
        }
"""),
    ]),
    ("idle_of_an_hour_by_default", [
        ("config", "keepalives_idle: 7200,", "keepalives_idle: 3600,"),
    ]),
    # the report
    ("password_shown", [
        ("report_lines", "fields::put_secret(2, c.password, dst, user)", "fields::put_text(2, c.password, decode, dst, user)"),
    ]),
    ("escapes_in_lower_case", [
        ("decimal", "put_fixed(b as u64, 16, true, 2, dst, at)", "put_fixed(b as u64, 16, false, 2, dst, at)"),
    ]),
    ("blank_not_escaped", [
        ("escape", "byte::is_between(0x21, 0x7E, b)", "byte::is_between(0x20, 0x7E, b)"),
    ]),
    ("percent_not_escaped", [
        ("escape", "    b != b'%'\n", "    true\n"),
    ]),
    ("unix_host_told_as_tcp", [
        ("line", "draw::put_bytes(b\"unix:\", dst, pen)", "draw::put_bytes(b\"tcp:\", dst, pen)"),
    ]),
    ("zero_retries_not_shown", [
        ("fields", "    put_seconds(key, r.map(u64::from), dst, pen)\n", """\
    if r == Some(0) {
        return pen;
    }
    put_seconds(key, r.map(u64::from), dst, pen)
"""),
    ]),
]


class Broken(Exception):
    """A slip that can't be tried."""


def changed(edits):
    """The sources that the edits change, by crate."""
    texts = {}
    for crate, old, new in edits:
        text = texts.get(crate) or (ROOT / "crates" / crate / "src/lib.rt").read_text()
        if text.count(old) != 1:
            raise Broken(f"what it changes stands {text.count(old)} times in crates/{crate}/src/lib.rt: {old!r}")
        texts[crate] = text.replace(old, new)
    return texts


def copy_into(place):
    """The sources and the vectors, without the proofs."""
    for source in ROOT.glob("crates/*/src"):
        shutil.copytree(source, place / "crates" / source.parent.name / "src")
    shutil.copy(ROOT / "crates.txt", place)
    shutil.copy(ROOT / "crates/replay/stdin", place / "crates/replay")


def run(place):
    """How many vectors are as they should be and how many differ, or None where the program does not come to an end."""
    crate = place / "crates/replay"
    with open(crate / "stdin", "rb") as vectors, open(place / "said", "w+", errors="replace") as out:
        # in a group of its own, so that what it started ends with it
        tool = subprocess.Popen(["rt", "try"], cwd=crate, stdin=vectors, stdout=out, stderr=out, start_new_session=True)
        try:
            tool.wait(SECONDS)
        except subprocess.TimeoutExpired:
            return None
        finally:
            if tool.poll() is None:
                os.killpg(tool.pid, signal.SIGKILL)
                tool.wait()
        out.seek(0)
        said = out.read()
    if not re.search(r"^(checked: |run=)", said, re.M):
        raise Broken("the copy does not compile:\n" + said)
    told = re.search(r"^(\d+) as they should be, (\d+) differ$", said, re.M)
    return (int(told[1]), int(told[2])) if told else None


def tried(edits):
    with tempfile.TemporaryDirectory(prefix="slips.") as folder:
        place = Path(folder)
        copy_into(place)
        for crate, text in changed(edits).items():
            (place / "crates" / crate / "src/lib.rt").write_text(text)
        return run(place)


def verdict(told, without):
    if told == without:
        return "not noticed"
    if told is None:
        return "noticed: the program does not come to an end"
    return f"noticed: {told[1]} vector{'' if told[1] == 1 else 's'}"


def main():
    wanted = sys.argv[1:]
    unknown = set(wanted) - {name for name, _ in SLIPS}
    if unknown:
        sys.exit("slips: there is no " + ", ".join(sorted(unknown)))
    slips = [(name, edits) for name, edits in SLIPS if not wanted or name in wanted]
    for name, edits in slips:
        try:
            changed(edits)
        except Broken as why:
            sys.exit(f"slips: {name}: {why}")
    without = tried([])
    owed = (ROOT / "crates/replay/stdout").read_text()
    if without is None or without[1] != 0 or owed != f"{without[0]} as they should be, 0 differ\n":
        sys.exit(f"slips: without a slip the program tells {without}")
    print(f"without a slip: {without[0]} vectors, none differs", flush=True)
    noticed = 0
    for name, edits in slips:
        try:
            word = verdict(tried(edits), without)
        except Broken as why:
            sys.exit(f"slips: {name}: {why}")
        noticed += word.startswith("noticed")
        print(f"{name}: {word}", flush=True)
    print(f"slips: {len(slips)} tried, {noticed} noticed")
    sys.exit(0 if noticed == len(slips) else 1)


if __name__ == "__main__":
    main()
