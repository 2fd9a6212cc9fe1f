"""Many changes, each tried on its own, and the table of their effects.

`families` makes the changes. `player` tries one, `executor` all of them: by processes of this machine (`local_pool`)
or by a Dask cluster (`cluster`; `cluster_worker` is what its workers do). `effect_counts` counts what a change does,
`effect_file` keeps that line by line; `table` and `page` show it. `plan` puts a sweep together.

A new family belongs in `families`, a new form of the results beside `table`. The tool `sweep` calls this."""
