"""The runs of crates/program_rows, subject by subject."""
