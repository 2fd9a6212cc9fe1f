"""A change of a network and its effect; and why a router chose what it chose.

`comparison` compares a network before and after, `transients` follows the messages in between, `effect` holds both
and `report` writes them for a reader. `what_if` makes a change, `rollback` takes it back, `baseline` spares
questions. `explanation` and `advertised_routes` say why a route was chosen, and what a peer receives.

A new report on a change belongs here. `sweep`, `picture`, `api`, `jobs` and the tools call this."""
