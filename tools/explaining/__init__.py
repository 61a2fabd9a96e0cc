"""The parts of tools/explain: what is wrong with a script, and which law a report breaks."""
