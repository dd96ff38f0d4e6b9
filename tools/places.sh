#!/usr/bin/env bash
# Counts the places of each point of docs/DESIGN-PASS.md in src/, at a commit: tools/places.sh [-l] COMMIT. With -l it lists them, too.
set -euo pipefail
cd "$(dirname "$0")/.."
list=
if [ "${1:-}" = -l ]; then list=1; shift; fi
at=${1:-HEAD}

# count POINT WHAT PATTERN
count() {
    local found
    found=$(git grep -nE "$3" "$at" -- 'crates/*/src/*.rt' || true)
    printf '%s  %4d  %s\n' "$1" "$(grep -c . <<<"$found" || true)" "$2"
    if [ -n "$list" ] && [ -n "$found" ]; then sed "s/^$at:/        /" <<<"$found"; fi
}

count 1 'own enums of the shape of Option or Result' '^pub enum (Number|Number16|Number32|Signed|Four|Part|Group|AddressRead|Step|UrlStep|Answer|Fault) '
count 1 'flags, or faults, with a value beside them' '^ +pub (set|ok|ended|fault|fixed|utf8|ink): (bool|Fault)'
count 1 'fields and parameters that are numbers for kinds or refusals' '\b(kind|key|number|word): (usize|u8|u32)\b'
count 1 'constants that are kinds or refusals' '^(pub )?const (HOST_KEY|ONE_HOST|NO_KEY|USER|PASSWORD|DBNAME|PORT|CLEAN|BRACKET|NO_EQUALS|NOT_UTF8|UNSOUND|REFUSED|NO_PLACE|A_PLACE)\b'
count 1 'cases by a number' '^ +[0-9]+ => '
count 1 'refusals made of a number' '((refuse_text|Refused|end|Ended)\([^)]*\b[1-9][0-9]*\b|Short => |Unsound => )'
count 2 'what a word is, by each of five types' '(fn (mode|negotiation|target|binding|balance)_number\(|fn (ssl_mode|ssl_negotiation|target_session_attrs|channel_binding|load_balance_hosts)(_of)?\(|^pub struct [A-Za-z]+Word )'
count 2 'setters of one frame' 'fn (connect_timeout|tcp_user_timeout|keepalives[a-z_]*|hostaddr|port|(set|lend)_[a-z_]+)\('
count 2 'lists of hosts, addresses, ports' '(fn (keep|add|put|is)_(port|address|host|hostaddr|addresse)s?\(|^pub struct More|fn (hosts|addresses)_of\()'
count 2 'parts and lines of a report' '(fn put_(byte|key|word|number|group|bytes|escape|seconds|retries|text|secret)\(|fn [a-z]+_line\()'
count 2 'keys a few a function' 'fn is_[a-z]+_key\('
count 2 'numbers of each width' '(fn read_(u16|u32|negative|positive)\(|^pub enum (Number16|Number32|Signed) )'
count 2 'constants that stand twice' '^(pub )?const (HOST_KEY|ONE_HOST|NO_KEY|UNSOUND|REFUSED|SHORT_PREFIX|LONG_PREFIX|DISABLE|PREFER|REQUIRE|POSTGRES|DIRECT|ANY|READ_WRITE|READ_ONLY|RANDOM|USER|PASSWORD|DBNAME|OPTIONS|APPLICATION_NAME|SSLMODE|SSLNEGOTIATION|HOST|HOSTADDR|PORT|CONNECT_TIMEOUT|TCP_USER_TIMEOUT|KEEPALIVES[A-Z_]*|TARGET_SESSION_ATTRS|CHANNEL_BINDING|LOAD_BALANCE_HOSTS)\b'
count 3 'while and loop' '^ *(while|loop)\b'
count 3 'counters set to zero by hand' '^ *let mut (i|k|at|left|len|count)(: [a-z0-9]+)? = [a-z0-9_]+;'
count 4 'byte::equals' 'byte::equals\('
count 4 'conversions by hand' 'fn (tell[a-z_]*|[a-z_]*number_of|key_of|kind_of|is_told|[a-z_]+_number)\('
count 5 'rows lent beside one another' '\b(fields|hosts|sixes|fours|ports): (&mut )?&?\[(usize|u64|u32|u16); [0-9]+\]'
count 5 'a buffer and a pen' 'dst: &mut \[u8\], pen: Pen'
count 6 'rows of numbers in place of a record' '\[0?(usize|u64|u32|u16)?; (16|17|32|48)\]'
count 6 'tables of names, and where each starts' '(^const (SHORT|LONG): |fn (start_of|name_len)\()'
count 7 'flags and numbers that say which way to go' '\b(uri|unix|upper|tail|ink|fixed): bool\b'
