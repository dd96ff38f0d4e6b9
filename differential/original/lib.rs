// The Rust that is ported: config.rs of pgwire 0.41.0, unchanged, with the few names that it takes from its own crate.
// run.sh puts config.rs into its place beside a copy of this file, with told.rs appended to it.
#![allow(dead_code)]

pub mod error {
    #[derive(Debug)]
    pub enum PgWireClientError {
        InvalidConfig(String),
        UnknownConfig(String),
        InvalidUtf8ConfigValue(std::str::Utf8Error),
    }
}

pub mod messages {
    #[allow(non_camel_case_types)]
    #[derive(Debug, Copy, Clone, PartialEq, Eq)]
    pub enum ProtocolVersion {
        PROTOCOL3_0,
        PROTOCOL3_2,
        PROTOCOL3_9999,
    }
}

pub mod api {
    pub mod client {
        pub mod config;
    }
}

pub use api::client::config::{applied, set, told, Call, Setting, Told};

/// Whether a text is read.
pub fn accepts(text: &str) -> bool {
    text.parse::<api::client::config::Config>().is_ok()
}

/// Whether a key is one of those that a text may set.
pub fn knows(key: &str) -> bool {
    let read = format!("{}=x", key).parse::<api::client::config::Config>();
    !matches!(read, Err(error::PgWireClientError::UnknownConfig(_)))
}
