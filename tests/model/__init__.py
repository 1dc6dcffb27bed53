"""A small model of `resb`, after the pages of docs/: what a text spells, what a file denotes, what a line is answered.

It shares nothing with the program, so that expected replies come from the documents.
"""
