//! `log_once_warn!` of the stand-in for `mtld3d_shared`, which is to note the stage that a message is about.
//!
//! Of the messages only one names its stage, but the functions that log them all have it in a variable. A macro by example could not name that
//! variable, so this one is procedural.

use proc_macro::{TokenStream, TokenTree};

/// 01's causes 1, 2, 4 and 8: how their messages begin, and what notes them. `stage` is the variable of the function that logs.
const CAUSES: [(&str, &str); 4] = [
    ("\"ff-fallback texture-op unhandled=", "note_op(stage)"),
    (
        "\"ff-fallback texture-arg unhandled=",
        "note_selector(stage)",
    ),
    (
        "\"ff-fallback texture-arg modifier unhandled=",
        "note_modifier(stage)",
    ),
    ("\"ff-fallback alpha_func unhandled=", "note_alpha()"),
];

/// `log_once_warn!(target: TARGET, FORMAT, ARGUMENTS)`.
#[proc_macro]
pub fn log_once_warn(call: TokenStream) -> TokenStream {
    let is_comma = |token: &TokenTree| matches!(token, TokenTree::Punct(p) if p.as_char() == ',');
    let message: TokenStream = call
        .into_iter()
        .skip_while(|token| !is_comma(token))
        .skip(1)
        .collect();
    let message = message.to_string();
    let note = CAUSES
        .iter()
        .find(|(front, _)| message.starts_with(front))
        .map_or("note_unnumbered()", |(_, note)| note);
    format!("{{ let _ = format_args!({message}); ::mtld3d_shared::{note}; }}")
        .parse()
        .expect("a block")
}
