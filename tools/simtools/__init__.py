"""What the commands of tools/ and bench/ are made of: tools/README.md says how. tools/ is on sys.path."""
