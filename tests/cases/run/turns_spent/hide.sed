s/^(mesh: turns 1 moment )[0-9]+/\1M/
