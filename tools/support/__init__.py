"""What the commands of tools/ are made of, for Python 3.8 or later with its own library alone.

A command of several files has a folder here. What more than one command needs stands beside these: `command` (words, other
programs, failures), `crates`, `toolchain`, `built` (what `rt ci` left), `sources`, `version`.
"""
