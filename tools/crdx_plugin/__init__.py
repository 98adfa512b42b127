"""The plugin `kubectl crdx`, which gets a definition from a cluster or from a file of YAML, relaxes it, and runs crdx on it.

In reading order: `texts` (its name and its help), `crdx` (the program that it runs), `helps` (their parts), `arguments` (its command line),
`sources` (files of YAML, and clusters), `inputs` (the definition and the objects), `versions` (which one is asked about), `widening` (what
crdx_schemas makes of the definition, and values for pools), `running` (its commands), `completing` (completions in kubectl).
"""
