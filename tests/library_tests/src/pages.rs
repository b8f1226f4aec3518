// The whole programs of the pages `CALLING.md`, word for word (`scripts/checks/pages`).
mod reader_in_thread;
mod report_lines;
mod tidy_log;
mod two_rounds;
