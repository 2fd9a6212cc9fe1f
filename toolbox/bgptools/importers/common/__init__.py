"""What importers share: routers as their configurations have them, and the script that these become.

`sources` reads files within bounds, `omissions` and `omission_table` say what is not taken over. `configuration` is
one router's configuration, `network` what all of them make, with `igp`, `igp_costs`, `sessions` and `origins`.
`policy`, `regions` and `route_settings` make rules of filters, `checks` says what no script says. `translation`
writes the script: an importer of configurations derives its own from it."""
