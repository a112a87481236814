"""The parts of the page that tools/report writes."""
