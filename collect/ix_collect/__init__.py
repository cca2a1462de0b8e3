"""Documents of mails, files and tables, as a collection for ix.

The readers in `mail`, `files` and `tables` yield documents, and tell a `Report` what they leave out or doubt. `Output`
writes the documents as lines `name TAB text LF`.
"""
