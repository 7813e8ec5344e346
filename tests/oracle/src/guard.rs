//! Catches the places where the Rust stops, without a word on standard error.

use std::cell::{Cell, RefCell};
use std::panic::{self, AssertUnwindSafe, PanicHookInfo};
use std::path::Path;
use std::sync::Once;

thread_local! {
    /// Whether this thread runs carried code
    static INSIDE: Cell<bool> = const { Cell::new(false) };
    /// What the last panic said
    static SAID: RefCell<String> = const { RefCell::new(String::new()) };
}

/// Run carried code; where it panics, give what it said
///
/// The panic hook that was set before stays in force for everything else.
pub(crate) fn guarded<T>(run: impl FnOnce() -> T) -> Result<T, String> {
    static HOOK: Once = Once::new();
    HOOK.call_once(|| {
        let before = panic::take_hook();
        panic::set_hook(Box::new(move |info| {
            if INSIDE.get() {
                SAID.set(words(info));
            } else {
                before(info);
            }
        }));
    });
    let outer = INSIDE.replace(true);
    let result = panic::catch_unwind(AssertUnwindSafe(run));
    INSIDE.set(outer);
    result.map_err(|_| SAID.take())
}

/// Get folder, file, line and words of a panic
fn words(info: &PanicHookInfo<'_>) -> String {
    let said = info.payload_as_str().unwrap_or("no words");
    match info.location() {
        Some(at) => {
            let mut parts = Path::new(at.file()).iter().rev();
            let file = parts.next().unwrap_or_default().display();
            let folder = parts.next().unwrap_or_default().display();
            format!("{folder}/{file}:{}: {said}", at.line())
        }
        None => said.to_string(),
    }
}
