/^(router| neighbour| flooding| routing|settled|gap)/!d
