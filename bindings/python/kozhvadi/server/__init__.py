"""A language server for Fluent files, over standard input and output: `kozhvadi-server`.

It speaks the Language Server Protocol 3.17: findings while you type, definitions and references, texts in each plural
category, completion, symbols, renaming over all files, tidying, fixes, and highlighting. It needs no other package.
"""
