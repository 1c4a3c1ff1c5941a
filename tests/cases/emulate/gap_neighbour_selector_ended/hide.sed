/^(router| neighbour| routing|settled|gap)/!d
