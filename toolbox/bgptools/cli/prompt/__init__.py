"""The prompt of `play` and `join`: commands as they are typed, and words of its own.

`local` is the prompt on a run of one's own, `shared` that on a network that several share. `completion` says what the
next word can be, `terminal` edits the line that is typed, `editing`
says with whose keys, `keyboard` says what Ctrl-C stops. A new word
of the prompt belongs in `local` or `shared`."""
