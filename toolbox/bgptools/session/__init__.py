"""One network that several share: its run and log, who is there, what each may do, and how requests are answered.

`shared_network` holds the run, the `log` with `ledger` and `notes`, `seats`, `workers` and `proposals`; `commands`
and `deliveries` change it, `restore` and `recovery` bring it back. `hub` is the event loop, `member` a connection,
`sockets` the socket of `join`, `client` its other end; `requests`, `answers` and `roles` say who may ask what, and
`request_schema` says it as JSON Schema.

Its process holds log and sockets, and computes nothing: `jobs` does. `web`, `share`, `join` and `lab` call it.
docs/reference/security.md says what is defended, and which test attacks it."""
