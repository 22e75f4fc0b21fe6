"""What check.py checks of the tools."""
