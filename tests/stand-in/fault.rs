//! The one fault that is switched on: the environment's CHOKES_FAULT names it.

use std::sync::OnceLock;

fn named() -> Option<&'static str> {
    static NAMED: OnceLock<Option<String>> = OnceLock::new();
    NAMED.get_or_init(|| std::env::var("CHOKES_FAULT").ok()).as_deref()
}

pub fn on(name: &str) -> bool {
    named() == Some(name)
}

/// True if the fault that is on has a name that begins so.
pub fn begins(with: &str) -> bool {
    named().is_some_and(|name| name.starts_with(with))
}
