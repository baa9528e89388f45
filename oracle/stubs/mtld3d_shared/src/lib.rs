//! Stand-in for `mtld3d_shared`: Metal buffer slots, and log macros that note 01's causes of warnings, with their stages.

use std::cell::Cell;

pub use mtld3d_shared_macros::log_once_warn;

pub mod mtl {
    /// The value that 01 gives.
    pub const PS_LOD_BIAS_SLOT: u16 = 11;

    // The vertex side's.
    pub const VERTEX_ATTRIBUTE_SLOTS: u16 = 31;
    pub const VS_FLOAT_CONST_SLOT: u16 = 15;
    pub const VS_POS_FIXUP_SLOT: u16 = 13;
    pub const VS_DRAW_SLOT: u16 = 12;
}

/// What was logged. A mask has bit i for stage i.
#[derive(Clone, Copy, Debug, PartialEq, Eq)]
pub struct Logged {
    pub op: u8,
    pub selector: u8,
    pub modifier: u8,
    pub alpha: bool,
    /// A message that 01 does not number.
    pub unnumbered: bool,
}

impl Logged {
    const NOTHING: Self = Self {
        op: 0,
        selector: 0,
        modifier: 0,
        alpha: false,
        unnumbered: false,
    };
}

thread_local! {
    static LOGGED: Cell<Logged> = const { Cell::new(Logged::NOTHING) };
}

/// Takes what this thread has logged and clears it.
pub fn take_logged() -> Logged {
    LOGGED.replace(Logged::NOTHING)
}

fn note(alter: impl Fn(&mut Logged)) {
    let mut logged = LOGGED.get();
    alter(&mut logged);
    LOGGED.set(logged);
}

pub fn note_op(stage: usize) {
    note(|logged| logged.op |= 1 << stage);
}

pub fn note_selector(stage: usize) {
    note(|logged| logged.selector |= 1 << stage);
}

pub fn note_modifier(stage: usize) {
    note(|logged| logged.modifier |= 1 << stage);
}

pub fn note_alpha() {
    note(|logged| logged.alpha = true);
}

pub fn note_unnumbered() {
    note(|logged| logged.unnumbered = true);
}

#[macro_export]
macro_rules! log_once_info_by {
    (target: $target:expr, key: $key:expr, $format:literal $($rest:tt)*) => {{
        let _ = ($target, $key, format_args!($format $($rest)*));
        $crate::note_unnumbered();
    }};
}
