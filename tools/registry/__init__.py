"""What the registry's tools share: CSV files, the session in them, the files that are made."""
