// What no clause promises: a line is written and read if there is enough memory, and the
// definitions agree with docs/FORMATS.md. Each line is written by hand from the table there.
mod canonical;
mod parser;
mod writer;
