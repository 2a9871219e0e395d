"""Runs many sessions, keeps their reports by content, and says which are not as wanted."""
