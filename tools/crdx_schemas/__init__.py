"""What crdx-relax and kubectl-crdx share: reading definitions, relaxing schemas, and judging values by them.

In reading order: `documents` (JSON with exact numbers), `keywords` (of schemas), `relaxing` (the wider schema), `changes` (in words),
`judging` (values, and what crdx still refuses), `pool_values` (values for pools), `definitions` (all versions of one), `programs` (streams
and statuses).
"""
