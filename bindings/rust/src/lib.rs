#![doc = include_str!("../README.md")]

mod answers;
mod events;
mod library;
mod view;

pub use answers::{Command, Commands, Done, Replica, Tag};
pub use events::{Entry, Event, Remaining};
pub use library::{version, Error, Manager, Options};
pub use view::{Located, Publisher, Reader};
