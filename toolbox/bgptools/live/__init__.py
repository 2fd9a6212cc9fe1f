"""Saved answers of real routers compared with the tables of a simulated network.

`routes` is a chosen route as a router shows it, `frr` and `bird` read the answers of each, `answers` a folder of them.
`comparison` says which routes agree, `report` tells it.
"""
