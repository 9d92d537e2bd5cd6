"""Scripts, line inputs and tray logs made from a seed."""
