"""The tools, a module each with `parser` and `main`: they read a command line, call the packages, and write.

`tools` has their names and runs one, `interpreter` finds a Python that has the libraries that some need, `prompt` is the
prompt of `play` and `join`.

A new tool is a module here; what it does belongs in another package. The launchers in toolbox/ call `tools`."""
