"""The parts of tools/ids: definitions, sessions by name, and pictures of files."""
