"""The tests of the page: of its files, and of the viewer in Chromium."""
