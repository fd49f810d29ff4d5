"""The report for people: a page with charts."""
