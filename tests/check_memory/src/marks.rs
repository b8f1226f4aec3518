// Lines on standard error for the library that watches this program. A line that can't be printed
// is left out, which a script notices.

/// A call of a manager with this number of workers.
#[derive(Clone, Copy)]
pub struct Window {
    pub name: &'static str,
    pub workers: u32,
    /// The number of the one allocation that is refused, or 0 if none is.
    pub turn: u32,
}

/// For a call in which no allocation is refused.
pub const OPEN: Window = Window {
    name: "",
    workers: 1,
    turn: 0,
};

/// From here on the allocation of this number is refused.
pub fn begin_turn(rt: &impl Eprint, window: &Window) {
    let Window {
        name,
        workers,
        turn,
    } = window;
    if *turn > 0 {
        let _ = eprintln!(rt; "refuse {turn} {name}/{workers}");
    }
}

/// From here on no allocation is refused.
pub fn end_turn(rt: &impl Eprint, window: &Window) {
    let Window { name, workers, .. } = window;
    if window.turn > 0 {
        let _ = eprintln!(rt; "ended {name}/{workers}");
    }
}

/// Between `begun` and `ended` every allocation is refused. At `mark` the bytes that are held are
/// counted.
pub fn say(rt: &impl Eprint, what: &str, name: &str) {
    let _ = eprintln!(rt; "{what} {name}");
}
