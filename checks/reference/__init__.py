"""Parts of the second reader in reference_stubs.py, written from the public standard (ECMA-335) and the rules of plhost's
profile, without a look at plhost's own code.

`signatures` and `descriptors` read blobs; `types` reads what tokens name; `layout` places fields; `table` is the
marshalling table; `printed` writes what `plhost stubs` prints.
"""
