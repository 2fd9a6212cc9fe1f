"""The pages of `lab`: a server on the loopback for browsers, beside the Unix socket in the same event loop.

`server` accepts connections and counts them by role, `handler` answers requests, `lab` holds the pages and their
secrets, `page` is one open page, `lesson` what a script says to a class, `static` what a browser loads. HTTP itself
is tornado's. The tool `lab` calls this."""
