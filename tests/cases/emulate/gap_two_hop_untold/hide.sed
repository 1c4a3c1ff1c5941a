/^(router| neighbour 10.0.0.3| held|settled|gap)/!d
