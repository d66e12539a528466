"""The library for other programs, and the page: how they are made and tried (tools/library, embedded, page)."""
