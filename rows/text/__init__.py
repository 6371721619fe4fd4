"""The tables of crates/text_rows."""
