/^( neighbour 10.0.0.3|settled|gap)/!d
