"""What has to hold in a network: invariants of a file, and whether they do.

`language` reads them, a line each, and `roles` those that say who is whose customer (RFC 9234). `state` is what a
converged network answers, asked once; `verdicts` says which invariants it breaks, and how.

A new invariant belongs in `language` and `verdicts`. `check`, `what-if` and `sweep` call this."""
