New patches:

[Add a shelf
Ann <ann@example.org>**20240101120000] adddir ./shelf

Context:

